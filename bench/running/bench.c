/* The benchmark of the running sum: a new state, all chunks, and the sum. */
#include <stdio.h>

#include "../../include/saffron_xxh3.h"
#include "../common/harness.h"
#include "chunks.h"

enum { SHIFT = 64, MOST = 1 << 24 };

typedef struct {
    size_t length, chunk;
} plan;

static uint64_t ours_in_chunks(const uint8_t *p, size_t n, size_t chunk) {
    SaffronXxh3State state = saffron_xxh3_new();
    for (size_t fed = 0; fed < n; fed += chunk)
        saffron_xxh3_update(&state, p + fed, n - fed < chunk ? n - fed : chunk);
    return saffron_xxh3_sum(&state);
}

/* Our own call, which has all bytes at hand. */
static uint64_t ours_at_once(const uint8_t *p, size_t n, size_t chunk) {
    (void)chunk;
    return saffron_xxh3_64(p, n);
}

#define AT_ONCE (function *)ours_at_once
#define XXHASH (function *)xxhash_in_chunks

const row rows[] = {
    {"64000-by-64", &(plan){64000, 64}, XXHASH, 400, 1.5},
    {"64000-by-1000", &(plan){64000, 1000}, XXHASH, 400, 1.5},
    {"16m-by-65536", &(plan){MOST, 65536}, AT_ONCE, 1, 1.05},
    {0},
};

function *const ours = (function *)ours_in_chunks, *const empty = empty_in_registers;

static bytes input;
static plan planned;

void prepare(const row *r) {
    planned = *(const plan *)r->plan;
    input = memory(planned.length + SHIFT);
    family(input);
}

uint64_t call(function *f, uint64_t last) {
    return ((chunked *)f)(input.bytes + (last & SHIFT), planned.length, planned.chunk);
}

static void same(size_t n, size_t chunk) {
    uint64_t sum = saffron_xxh3_64(input.bytes, n);
    if (ours_in_chunks(input.bytes, n, chunk) != sum || xxhash_in_chunks(input.bytes, n, chunk) != sum)
        stop(1, "the sums differ at %zu bytes in chunks of %zu", n, chunk);
}

void compare(void) {
    const size_t chunks[] = {1, 63, 64, 65, 255, 256, 257, 1000, 1024};
    prepare(&(row){.plan = &(plan){MOST, 1}});
    for (size_t n = 0; n <= 1100; n++)
        for (size_t i = 0; i < sizeof chunks / sizeof chunks[0]; i++)
            same(n, chunks[i]);
    for (const row *r = rows; r->name != NULL; r++)
        same(((const plan *)r->plan)->length, ((const plan *)r->plan)->chunk);
    printf("The same sums: at 0 to 1,100 bytes in chunks of nine sizes, and as the table has them.\n");
}
