/* The benchmark of the header: opening, and its fields. */
#include <stdio.h>
#include <string.h>

#include "../common/harness.h"
#include "../common/plain.h"

typedef EdgeSstHeader reader(const uint8_t *p, size_t n);

#define PLAIN (function *)plain_header
#define CORPUS "crates/test_open/stdin"

const row rows[] = {
    {"heading-only", "heading-only", PLAIN, 8000, 0},
    {"one-edge", "one-edge", PLAIN, 8000, 0},
    {0},
};

function *const ours = (function *)edge_sst_header, *const empty = empty_in_memory;

static bytes input;

void prepare(const row *r) { input = entry(CORPUS, r->plan); }

/* A file that opens has the number 0, so that each call starts at its first byte. */
uint64_t call(function *f, uint64_t last) { return ((reader *)f)(input.bytes + last, input.size).number; }

/* Ours and plain C must agree to every number and byte. */
void compare(void) {
    bytes corpus = read_all(CORPUS), f;
    char name[256];
    int open = 0, all = 0;
    for (; next_entry(&corpus, name, &f); all++) {
        EdgeSstHeader a = edge_sst_header(f.bytes, f.size), b = plain_header(f.bytes, f.size);
        if (memcmp(&a, &b, sizeof a) != 0)
            stop(1, "the headers differ on '%s': %llu and %llu", name, (unsigned long long)a.number,
                 (unsigned long long)b.number);
        open += a.number == 0;
    }
    printf("The same headers: %d files of the corpus, %d of which open.\n", all, open);
}
