/* How many bytes a second each sum takes: ours, plain Rust written to be fast, and xxHash's own
 * SSE2 C, on the same bytes.
 *
 *   rates      a line for each length: the bytes, warm or cold, and bytes a second of the three
 *
 * Warm: one buffer again and again, whose start depends on the sum before. Cold: all lines of
 * the buffer are flushed from the caches before each call. The best of RUNS runs in turns. */
#include <emmintrin.h>
#include <stdio.h>
#include <stdlib.h>
#include <time.h>

#include "../../include/saffron_xxh3.h"

typedef uint64_t summer(const uint8_t *p, size_t n);

summer sse2_xxh3_64, rust_xxh3_64;

enum { RUNS = 15, SHIFT = 64, LINE = 64, THREE = 3, MOST = 1 << 24 };
static const double LEAST = 20e6; /* nanoseconds of a warm run */
static summer *const sums[THREE] = {saffron_xxh3_64, rust_xxh3_64, sse2_xxh3_64};

static double now(void) {
    struct timespec t;
    clock_gettime(CLOCK_PROCESS_CPUTIME_ID, &t);
    return (double)t.tv_sec * 1e9 + (double)t.tv_nsec;
}

static volatile uint64_t last;

static double warm(summer *f, const uint8_t *p, size_t n, uint64_t calls) {
    uint64_t sum = 0;
    double began = now();
    for (uint64_t i = 0; i < calls; i++)
        sum = f(p + (sum & SHIFT), n);
    last = sum;
    return (now() - began) / (double)calls;
}

static double cold(summer *f, const uint8_t *p, size_t n, uint64_t calls) {
    (void)calls;
    for (size_t i = 0; i < n; i += LINE)
        _mm_clflush(p + i);
    _mm_mfence();
    return warm(f, p, n, 1);
}

typedef double timer(summer *f, const uint8_t *p, size_t n, uint64_t calls);

static void told(const char *how, timer *t, const uint8_t *p, size_t n, uint64_t calls) {
    double least[THREE];
    for (int run = 0; run < RUNS; run++)
        for (int i = 0; i < THREE; i++) {
            double took = t(sums[i], p, n, calls);
            if (run == 0 || took < least[i])
                least[i] = took;
        }
    printf("%zu %s", n, how);
    for (int i = 0; i < THREE; i++)
        printf(" %.0f", (double)n / least[i] * 1e9);
    printf("\n");
}

static void same(const uint8_t *p, size_t n) {
    uint64_t sum = sums[0](p, n);
    for (int i = 1; i < THREE; i++)
        if (sums[i](p, n) != sum) {
            fprintf(stderr, "rates: the sums differ at %zu bytes\n", n);
            exit(1);
        }
}

int main(void) {
    static const size_t lengths[] = {64, 240, 4096, MOST};
    uint8_t *p = aligned_alloc(LINE, MOST + 2 * SHIFT);
    uint64_t x = 1;
    if (p == NULL) {
        fprintf(stderr, "rates: no memory\n");
        return 2;
    }
    for (size_t i = 0; i < MOST + 2 * SHIFT; i++)
        p[i] = (uint8_t)((x = x * 6364136223846793005u + 1442695040888963407u) >> 56);
    for (size_t n = 0; n <= 4400; n++)
        same(p, n);
    for (size_t n = 0; n <= 16; n++)
        same(p + n, MOST - 61 * n);
    for (size_t k = 0; k < sizeof lengths / sizeof lengths[0]; k++) {
        uint64_t calls = 1;
        while (warm(sums[0], p, lengths[k], calls) * (double)calls < LEAST)
            calls *= 2;
        told("warm", warm, p, lengths[k], calls);
    }
    told("cold", cold, p, MOST, 1);
    return 0;
}
