/* What the parts of the test share: counts, inputs, expected lines, lent outputs. */
#ifndef TEST_H
#define TEST_H

#include <stddef.h>
#include <stdint.h>

#include "../../include/edge_sst.h"

enum { ID = 16, GUARD = 64, LINE = 4096, HEADING = 50, EDGE = 41 };

/* Calls of the library so far, and what differed from the expected. */
extern unsigned long long calls, differences;

/* Counts a difference and prints it; after the first few it only counts. */
void differ(const char *format, ...);

void *memory(size_t n);

typedef struct {
    const uint8_t *p;
    size_t n;
} Bytes;

/* All bytes of the file DIR/NAME, with a zero byte behind them. */
Bytes read_all(const char *dir, const char *name);

/* The next n bytes, and the next number of n bytes, the lowest first. They move
 * past what they give and end the test where the input is cut. */
Bytes take(Bytes *from, size_t n);
uint64_t take_number(Bytes *from, size_t n);

/* The next name (a byte of length before it) and the next item (four bytes of
 * length before it). The item is a copy of its own: a memory checker sees reads
 * beside it. */
void take_name(Bytes *from, char name[256]);
Bytes take_item(Bytes *from);
void give_back(Bytes item);

/* The expected output, line by line. */
typedef struct {
    const char *at;
} Lines;

Lines lines_of(const char *dir, const char *name);

/* Copies the next line; 0 where there is none. A line that begins with two
 * spaces belongs to the one before: peek_detail says whether such a line follows. */
int next_line(Lines *lines, char line[LINE]);
int peek_detail(const Lines *lines);

/* The next line without its "NAME: ". Another name is a difference. */
const char *line_for(Lines *lines, const char *name, char line[LINE]);

/* Is the line exactly what the format makes? Otherwise it is a difference. */
void hold_line(const char *name, const char *expected, const char *format, ...);

/* The first n bytes of the family that the vectors of sums are of. */
uint8_t *family(size_t n);

/* An output lent to a call: n bytes, and guards before and behind that no call
 * may touch. */
typedef struct {
    uint8_t *bytes;
    size_t n;
} Lent;

/* How an output is filled before a call: byte i is 7i + 3; number i is
 * 1,000,003i + 11; each mark is 0xAA. */
typedef enum { AS_BYTES, AS_NUMBERS, AS_MARKS } Fill;

Lent lend(size_t n, Fill fill);
void take_back(Lent lent);

/* Holds every byte: the answer's, then the fill, and the guards. Where answer is
 * null the call was not to write at all. */
void hold_output(const char *name, const char *what, Lent lent, Fill fill, const uint8_t *answer, size_t n);

/* The guards alone. */
void hold_guards(const char *name, const char *what, Lent lent);

/* The guards, and then the sum of the whole output. */
uint64_t whole_sum(const char *name, Lent lent);

/* The number of n bytes at p, the lowest first, and the same put there. */
uint64_t number_at(const uint8_t *p, size_t n);
void put_number(uint8_t *p, uint64_t number, size_t n);

/* The file of the corpus of opening that has this name. */
Bytes find_file(const char *dir, const char *name);

/* Where the footer of a file begins, how many entries its table has, where this one begins,
 * and its row, as the bytes say. */
size_t footer_of(Bytes file);
size_t entries_of(Bytes file);
size_t entry_of(Bytes file, size_t entry);
EdgeSstRow row_of(Bytes file, size_t entry);

/* Sets the checksum of the section of this entry right, and that of the footer. */
void mend_section(uint8_t *p, size_t n, size_t entry);
void mend_footer(uint8_t *p, size_t n);

/* The parts of the test: each takes the folder with the corpora. */
void test_sums(const char *dir);
void test_running(const char *dir);
void test_opening(const char *dir);
void test_kinds(const char *dir);
void test_starts(const char *dir);
void test_lookups(const char *dir);
void test_groups(const char *dir);
void test_checks(const char *dir);
void test_writes(const char *dir);
void test_summaries(const char *dir);

/* Lookups of every key of a file that passes, against its read-out. */
void test_keys(const char *name, Bytes file, Bytes batch);

/* The format's rule 21, once more: may the record be of a file of this size? */
int possible_record(const EdgeSstOpened *o, uint64_t size);

/* Lookups by records with a number changed: 21 exactly where it must be. */
void test_records(const char *name, Bytes file, const EdgeSstOpened *opened);

/* The batch of a file that passes, written and read out again. */
void test_again(const char *name, Bytes batch);

/* The summary of any bytes, which stay as they are. */
EdgeSstSummary ask_summary(const char *name, Bytes file);

/* Every byte of a summary. */
void hold_summary(const char *name, const EdgeSstSummary *got, const EdgeSstSummary *expected);

/* The summary of a file against the full check and a model over its read-out; and
 * against its line too. */
void test_summary(const char *name, Bytes file);
void test_summary_line(const char *name, Bytes file, const char *line);

/* Summaries of a file that passes with a bit changed, if it is not too long. */
void test_damaged(const char *name, Bytes file);

#endif
