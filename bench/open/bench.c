/* The benchmark of opening. */
#include <stdio.h>
#include <string.h>

#include "../common/file.h"
#include "../common/plain.h"

typedef EdgeSstOpened opener(const uint8_t *p, size_t n);

/* An entry of the corpus, or else a file of LARGE keys of one edge each, with fences or a start index. */
typedef struct {
    const char *entry;
    int fenced, starts;
} plan;

enum { LARGE = 65536 };
#define PLAIN (function *)plain_open
#define CORPUS "crates/test_open/stdin"

static const plan with_starts = {NULL, 0, 1};

static EdgeSstOpened own_without(const uint8_t *p, size_t n);

const row rows[] = {
    {"heading-only", &(plan){"heading-only", 0, 0}, PLAIN, 8000, 0},
    {"one-edge", &(plan){"one-edge", 0, 0}, PLAIN, 8000, 0},
    {"sections-64-skipped", &(plan){"sections-64-skipped", 0, 0}, PLAIN, 8000, 0},
    {"keys-65536", &(plan){NULL, 0, 0}, PLAIN, 2, 1.3},
    {"keys-65536-fences", &(plan){NULL, 1, 0}, PLAIN, 2, 1.3},
    {"keys-65536-starts", &with_starts, PLAIN, 2, 1.3},
    {"keys-65536-starts-own", &with_starts, (function *)own_without, 2, 1.35},
    {0},
};

function *const ours = (function *)edge_sst_open, *const empty = empty_in_memory;

static bytes input, without; /* the input, and the same file without a start index */

/* The upper halves of the keys rise, so that the lower ones decide nothing. */
static bytes large(int fenced, int starts) {
    content c = room_for(LARGE, 12 * LARGE);
    c.fenced = fenced;
    c.starts = starts;
    for (uint64_t i = 0, seed = 1; i < LARGE; i++)
        add(&c, i * 0xFFFFFFFFFFFF, seed, 1, 0, &seed);
    return file_of(&c);
}

void prepare(const row *r) {
    const plan *w = r->plan;
    input = w->entry != NULL ? entry(CORPUS, w->entry) : large(w->fenced, w->starts);
    if (w->starts)
        without = large(w->fenced, 0);
}

/* Our own opening of the file without a start index, in the place of plain C. */
static EdgeSstOpened own_without(const uint8_t *p, size_t n) {
    (void)n;
    return edge_sst_open(without.bytes + (p - input.bytes), without.size);
}

/* A file that opens has the number 0, so that each call starts at its first byte. */
uint64_t call(function *f, uint64_t last) { return ((opener *)f)(input.bytes + last, input.size).number; }

/* Whether the file opens, in which ours and plain C must agree to every number. */
static int opens(const char *name, bytes f) {
    EdgeSstOpened a = edge_sst_open(f.bytes, f.size), b = plain_open(f.bytes, f.size);
    if (memcmp(&a, &b, sizeof a) != 0)
        stop(1, "the answers differ on '%s': %llu and %llu", name, (unsigned long long)a.number,
             (unsigned long long)b.number);
    return a.number == 0;
}

void compare(void) {
    bytes corpus = read_all(CORPUS), f;
    char name[256];
    int open = 0, all = 0;
    for (; next_entry(&corpus, name, &f); all++)
        open += opens(name, f);
    for (const row *r = rows; r->name != NULL; r++) {
        prepare(r);
        if (!opens(r->name, input))
            stop(1, "'%s' does not open", r->name);
        if (((const plan *)r->plan)->starts && !opens("the same file without a start index", without))
            stop(1, "'%s' does not open without its start index", r->name);
    }
    printf("The same answers: %d files of the corpus, %d of which open, and those of the table.\n", all, open);
}
