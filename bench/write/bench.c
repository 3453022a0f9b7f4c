/* The benchmark of writing. */
#include <stdio.h>
#include <stdlib.h>
#include <string.h>

#include "../common/batch.h"
#include "../common/output.h"

enum { CHANGES = 20000 };
#define PLAIN (function *)plain_write

const row rows[] = {
    {"one-edge", &(batch_plan){1, 1, TIMES, 0}, PLAIN, 8000, 0},
    {"keys-1000", &(batch_plan){125, 8, TIMES, 1}, PLAIN, 100, 0},
    {"minute-1m", &(batch_plan){1 << 17, 8, TIMES, 0}, PLAIN, 1, 0},
    {"mixed-1m", &(batch_plan){1 << 17, 8, TIMES, 1}, PLAIN, 1, 1.5},
    {"year-1m", &(batch_plan){1 << 17, 8, TIMES, 4}, PLAIN, 1, 0},
    {"large-1m", &(batch_plan){1 << 10, 1024, TIMES, 1}, PLAIN, 1, 0},
    {"v7-1m", &v7_1m, PLAIN, 1, 0},
    {"dense-1m", &dense_1m, PLAIN, 1, 0},
    {0},
};

function *const ours = (function *)edge_sst_write, *const empty = empty_in_memory;

static bytes input, output;

void prepare(const row *r) {
    input = batch_of(r->plan);
    output = file_of_batch(input);
}

/* A batch that is written has the number 0, so that each call starts at its first byte. */
uint64_t call(function *f, uint64_t last) {
    return ((maker *)f)(input.bytes + last, input.size, output.bytes, output.size).number;
}

static uint64_t number_of(const char *name, bytes batch) {
    EdgeSstDone a = edge_sst_needed(batch.bytes, batch.size), b = plain_needed(batch.bytes, batch.size);
    if (memcmp(&a, &b, sizeof a) != 0)
        stop(1, "the sizes differ on '%s'", name);
    return same(name, plain_write, batch).number;
}

/* The keys up to which there is no start index, and one more. */
static void around_starts(void) {
    for (uint64_t keys = 1024; keys <= 1025; keys++)
        for (uint64_t degree = 1; degree <= 3; degree++) {
            bytes batch = batch_of(&(batch_plan){keys, degree, SPAN, 0});
            if (number_of("a batch of about 1,025 keys", batch) != 0)
                stop(1, "%llu keys are not written", (unsigned long long)keys);
            free(batch.bytes);
        }
}

/* A batch of a few keys with one bit changed. */
static void change(uint64_t told[NUMBERS]) {
    bytes batch = batch_of(&(batch_plan){9, 5, TIMES, 2});
    for (uint64_t i = 0, seed = 1; i < CHANGES; i++) {
        seed = turn(seed);
        uint8_t *place = batch.bytes + (seed >> 20) % batch.size, before = *place;
        *place ^= (uint8_t)(1u << (seed >> 61));
        told[number_of("a changed batch", batch)]++;
        *place = before;
    }
}

void compare(void) {
    bytes corpus = read_all("crates/test_write/stdin"), batch;
    char name[256];
    uint64_t told[NUMBERS] = {0};
    int all = 0, written = 0;
    for (; next_entry(&corpus, name, &batch); all++)
        written += number_of(name, batch) == 0;
    for (const row *r = rows; r->name != NULL; r++) {
        batch = batch_of(r->plan);
        if (number_of(r->name, batch) != 0)
            stop(1, "'%s' is not written", r->name);
        free(batch.bytes);
    }
    around_starts();
    change(told);
    printf("The same answers and bytes: %d batches of the corpus, %d of which are written; those of\n", all, written);
    printf("the table; six of 1,024 and 1,025 keys; and %d with a bit changed, by number:", CHANGES);
    print_told(told);
}
