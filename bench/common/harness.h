/* What all benchmarks have in common, and what each of them gives. */
#ifndef HARNESS_H
#define HARNESS_H

#include <stddef.h>
#include <stdint.h>

typedef struct {
    uint8_t *bytes;
    size_t size;
} bytes;

typedef void function(void); /* of any type: the benchmark knows which */

/* One row of the table: ours against plain C on one input. */
typedef struct {
    const char *name;
    const void *plan; /* what its input is made from: the benchmark's own */
    function *plain;
    uint64_t calls; /* how many are counted; a quarter as many, at least one, go before */
    double bar;     /* the most that ours may take where plain C takes 1; 0: no bar */
} row;

/* Each benchmark gives these. */

extern const row rows[]; /* small inputs first; ended by a row without a name */
extern function *const ours, *const empty;

/* Makes the input of the row, for the calls that follow. */
void prepare(const row *r);

/* Calls f on that input. `last` is what the call before gave, 0 at first; where the
 * input starts depends on it, so that no call can be left out or begin too soon. */
uint64_t call(function *f, uint64_t last);

/* Holds ours to plain C: exit status 1 where they differ. */
void compare(void);

/* And may use these. */

function empty_in_registers, empty_in_memory;

void stop(int status, const char *format, ...) __attribute__((format(printf, 2, 3), noreturn));
bytes memory(size_t size); /* not cleared; begins at a multiple of 64 */
bytes read_all(const char *path);
void family(bytes b); /* fills it with the byte family of the second program */

/* The next numbers of no order. */
static inline uint64_t turn(uint64_t x) { return x * 6364136223846793005u + 1442695040888963407u; }

/* Takes the next entry of a corpus: one byte with the length of its name, the name,
 * four bytes with the length of what follows, and that. 0 if there is none. */
int next_entry(bytes *corpus, char name[256], bytes *out);

/* The entry of that name in the corpus at path. */
bytes entry(const char *path, const char *wanted);

/* How often each number was told. */
enum { NUMBERS = 64 };
void print_told(const uint64_t told[NUMBERS]);

#endif
