/* The benchmark of the summary. */
#include <stdio.h>
#include <stdlib.h>
#include <string.h>

#include "../common/batch.h"
#include "../common/file.h"
#include "../common/plain.h"

typedef EdgeSstSummary summarizer(const uint8_t *p, size_t n);

/* A file of so many edges with keys of so many partners, the last key of what is left, all split
 * or all dense, and without tombstones; or that of a batch. */
typedef struct {
    uint64_t edges, degree;
    int dense;
    const batch_plan *batch;
} plan;

enum { CHANGES = 20000 };
#define PLAIN (function *)plain_summary
#define OWN_CHECK (function *)edge_sst_check

static const plan one_edge = {1, 1, 0, NULL}, v7 = {.batch = &v7_1m};
static const plan split = {1 << 20, 8, 0, NULL}, dense = {1 << 20, 1000, 1, NULL};

const row rows[] = {
    {"one-edge", &one_edge, PLAIN, 8000, 0},
    {"one-edge-own-check", &one_edge, OWN_CHECK, 8000, 0},
    {"v7-1m", &v7, PLAIN, 1, 0},
    {"v7-1m-own-check", &v7, OWN_CHECK, 1, 1.15},
    {"split-1m", &split, PLAIN, 1, 0},
    {"split-1m-own-check", &split, OWN_CHECK, 1, 1.15},
    {"dense-1m", &dense, PLAIN, 1, 0},
    {"dense-1m-own-check", &dense, OWN_CHECK, 1, 1.15},
    {0},
};

function *const ours = (function *)edge_sst_summary, *const empty = empty_in_memory;

static bytes input;

static bytes filled(const plan *w) {
    uint64_t keys = w->edges / w->degree + 1, seed = 3;
    content c = room_for(keys, 32 * (keys + w->edges));
    while (c.edges < w->edges) {
        uint64_t left = w->edges - c.edges;
        add(&c, c.keys * 0xFFFFFFFFFF, turn(c.keys), left < w->degree ? left : w->degree, w->dense, &seed);
    }
    return file_of(&c);
}

void prepare(const row *r) {
    const plan *w = r->plan;
    input = w->batch != NULL ? file_of_batch(batch_of(w->batch)) : filled(w);
}

/* A file that passes has the number 0, so that each call starts at its first byte. The check too
 * is called as if it gave a summary: its answer is that of a summary's first numbers. */
uint64_t call(function *f, uint64_t last) { return ((summarizer *)f)(input.bytes + last, input.size).number; }

/* Ours, to which plain C is held, and which tells what our own check tells. */
static EdgeSstSummary same(const char *name, bytes f) {
    EdgeSstSummary a = edge_sst_summary(f.bytes, f.size), b = plain_summary(f.bytes, f.size);
    EdgeSstTold c = edge_sst_check(f.bytes, f.size);
    if (memcmp(&a, &b, sizeof a) != 0 || memcmp(&a, &c, sizeof c) != 0)
        stop(1, "the answers differ on '%s': %llu at %llu, %llu at %llu, and of the check %llu at %llu", name,
             (unsigned long long)a.number, (unsigned long long)a.place, (unsigned long long)b.number,
             (unsigned long long)b.place, (unsigned long long)c.number, (unsigned long long)c.place);
    return a;
}

/* One byte changed, and three times of four the sums put right. */
static void change(bytes f, uint64_t told[NUMBERS]) {
    bytes g = memory(f.size);
    for (uint64_t i = 0, seed = 1; i < CHANGES; i++) {
        change_byte(f, g, i, seed = turn(seed));
        told[same("a changed file", g).number]++;
    }
}

void compare(void) {
    bytes corpus = read_all("crates/test_check/stdin"), f;
    char name[256];
    uint64_t told[NUMBERS] = {0};
    int all = 0, fine = 0;
    for (; next_entry(&corpus, name, &f); all++)
        fine += same(name, f).number == 0;
    for (const row *r = rows; r->name != NULL; r++) {
        prepare(r);
        if (same(r->name, input).number != 0)
            stop(1, "'%s' does not pass", r->name);
        free(input.bytes);
    }
    change(mixed_file(0), told);
    change(mixed_file(1), told);
    change(file_of_batch(batch_of(&(batch_plan){9, 5, TIMES, 2})), told);
    printf("The same answers, and our check's refusals: %d files of the corpus, %d of which pass;\n", all, fine);
    printf("those of the table; and %d with a byte changed, by number:", 3 * CHANGES);
    print_told(told);
}
