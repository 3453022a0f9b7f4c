/* The benchmark of the read-out. */
#include <stdio.h>
#include <stdlib.h>
#include <string.h>

#include "../common/batch.h"
#include "../common/file.h"
#include "../common/output.h"

enum { CHANGES = 20000 };
#define PLAIN (function *)plain_read_out

const row rows[] = {
    {"one-edge", &(batch_plan){1, 1, NEAR, 0}, PLAIN, 8000, 0},
    {"split-1m", &near_1m, PLAIN, 1, 0},
    {"v7-1m", &v7_1m, PLAIN, 1, 0},
    {"dense-1m", &dense_1m, PLAIN, 1, 0},
    {0},
};

function *const ours = (function *)edge_sst_read_out, *const empty = empty_in_memory;

static bytes input, output;

/* The output has exactly the batch's room, and the batch stands in it. */
void prepare(const row *r) {
    output = batch_of(r->plan);
    input = file_of_batch(output);
}

/* A file that is read out has the number 0, so that each call starts at its first byte. */
uint64_t call(function *f, uint64_t last) {
    return ((maker *)f)(input.bytes + last, input.size, output.bytes, output.size).number;
}

/* One byte changed, and three times of four the sums put right. */
static void change(bytes f, uint64_t told[NUMBERS]) {
    bytes g = memory(f.size);
    for (uint64_t i = 0, seed = 1; i < CHANGES; i++) {
        change_byte(f, g, i, seed = turn(seed));
        told[same("a changed file", plain_read_out, g).number]++;
    }
}

/* Ours gives back the batch that the file was written from. */
static void given_back(const row *r) {
    prepare(r);
    if (same(r->name, plain_read_out, input).number != 0)
        stop(1, "'%s' is not read out", r->name);
    bytes out = memory(output.size);
    edge_sst_read_out(input.bytes, input.size, out.bytes, out.size);
    if (memcmp(out.bytes, output.bytes, out.size) != 0)
        stop(1, "'%s' is read out as another batch", r->name);
    free(out.bytes);
    free(input.bytes);
    free(output.bytes);
}

void compare(void) {
    bytes corpus = read_all("crates/test_check/stdin"), f;
    char name[256];
    uint64_t told[NUMBERS] = {0};
    int all = 0, fine = 0;
    for (; next_entry(&corpus, name, &f); all++)
        fine += same(name, plain_read_out, f).number == 0;
    for (const row *r = rows; r->name != NULL; r++)
        given_back(r);
    change(file_of_batch(batch_of(&(batch_plan){9, 5, TIMES, 2})), told);
    change(mixed_file(1), told);
    printf("The same answers and bytes: %d files of the corpus, %d of which are read out; those of the\n", all, fine);
    printf("table, as the batches that they were written from; and %d with a byte changed, by number:", 2 * CHANGES);
    print_told(told);
}
