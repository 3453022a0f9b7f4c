/* The benchmark of XXH3-64. */
#include <stdio.h>

#include "../../include/saffron_xxh3.h"
#include "../common/harness.h"

typedef uint64_t summer(const uint8_t *p, size_t n);

summer sse2_xxh3_64, scalar_xxh3_64, rust_xxh3_64;

enum { SHIFT = 64, MOST = 1 << 24 };
#define SSE2 (function *)sse2_xxh3_64
#define SCALAR (function *)scalar_xxh3_64
#define RUST (function *)rust_xxh3_64

/* The plan is the length. The bars of 256 to 1,024 bytes are what the sum took before its blocks were written out. */
const row rows[] = {
    {"0", &(size_t){0}, SSE2, 8000, 0},
    {"16", &(size_t){16}, SSE2, 8000, 0},
    {"64", &(size_t){64}, SSE2, 8000, 0},
    {"128", &(size_t){128}, SSE2, 8000, 0},
    {"240", &(size_t){240}, SSE2, 8000, 0},
    {"256", &(size_t){256}, SSE2, 8000, 1.307},
    {"512", &(size_t){512}, SSE2, 8000, 1.225},
    {"1024", &(size_t){1024}, SSE2, 8000, 1.169},
    {"4096", &(size_t){4096}, SSE2, 8000, 1.04},
    {"65536", &(size_t){65536}, SSE2, 400, 1.04},
    {"1m", &(size_t){1 << 20}, SSE2, 20, 1.04},
    {"16m", &(size_t){MOST}, SSE2, 1, 1.04},
    {"4096-scalar", &(size_t){4096}, SCALAR, 8000, 0},
    {"16m-scalar", &(size_t){MOST}, SCALAR, 1, 0},
    {"4096-rust", &(size_t){4096}, RUST, 8000, 1},
    {"16m-rust", &(size_t){MOST}, RUST, 1, 1},
    {0},
};

function *const ours = (function *)saffron_xxh3_64, *const empty = empty_in_registers;

static bytes input;
static size_t length;

void prepare(const row *r) {
    length = *(const size_t *)r->plan;
    input = memory(length + SHIFT);
    family(input);
}

uint64_t call(function *f, uint64_t last) { return ((summer *)f)(input.bytes + (last & SHIFT), length); }

static void same(size_t n) {
    uint64_t sum = saffron_xxh3_64(input.bytes, n);
    if (sse2_xxh3_64(input.bytes, n) != sum || scalar_xxh3_64(input.bytes, n) != sum ||
        rust_xxh3_64(input.bytes, n) != sum)
        stop(1, "the sums differ at %zu bytes", n);
}

void compare(void) {
    prepare(&(row){.plan = &(size_t){MOST}});
    for (size_t n = 0; n <= 4400; n++)
        same(n);
    for (const row *r = rows; r->name != NULL; r++)
        same(*(const size_t *)r->plan);
    printf("The same sums: at 0 to 4,400 bytes, and at the lengths of the table.\n");
}
