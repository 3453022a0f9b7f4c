#include "batch.h"
#include "format.h"
#include "plain.h"

enum { DEAD_EACH = 16, SPAN_BITS = 26 };

const batch_plan near_1m = {1 << 17, 8, NEAR, 0}, v7_1m = {1 << 17, 8, SPAN, 0}, dense_1m = {512, 2048, TIMES, 0};

/* An id as UUID version 7 makes it: milliseconds, and bits of no order. */
static void put_id(uint8_t *p, uint64_t milliseconds, uint64_t seed) {
    put_be64(p, milliseconds << 16 | 0x7000 | (seed >> 52));
    put_be64(p + HALF, (uint64_t)2 << 62 | turn(seed) >> 2);
}

/* How far the next partner of key i is from the one before. */
static uint64_t step(const batch_plan *w, uint64_t i, uint64_t seed) {
    const uint64_t minute = 60000, year = 31536000000;
    uint64_t bit = (uint64_t)1 << (seed >> 20) % SPAN_BITS;
    switch (w->ids) {
    case TIMES:
        return 1 + (seed >> 20) % ((i % 4 < w->spread ? year : minute) / w->degree);
    case SPAN:
        return bit + ((seed >> 30) & (bit - 1));
    default:
        return 1 + (seed >> 33) % 200;
    }
}

bytes batch_of(const batch_plan *w) {
    const uint64_t start = 1715000000000;
    bytes b = memory(HEADING + EDGE * w->keys * w->degree);
    uint8_t *p = b.bytes;
    uint64_t seed = 5, key_time = start, log = 1000;
    memset(p, 7, HEADING);
    p[0] = HEAD;
    p[1] = 0;
    p += HEADING;
    for (uint64_t i = 0; i < w->keys; i++) {
        uint64_t key_seed = seed = turn(seed), at = w->ids == NEAR ? 0 : start;
        key_time += 1 + (seed >> 40) % 100;
        for (uint64_t k = 0; k < w->degree; k++, p += EDGE) {
            seed = turn(seed);
            at += step(w, i, seed);
            p[0] = (seed >> 30) % DEAD_EACH == 0 ? DEAD_EDGE : LIVE_EDGE;
            put_id(p + RECORD_KEY, key_time, key_seed);
            put_id(p + RECORD_PARTNER, at, seed);
            if (w->ids == NEAR)
                put_be64(p + RECORD_PARTNER, at);
            log += 1 + (seed >> 50) % 3;
            put64(p + RECORD_LOG, log);
        }
    }
    return b;
}

bytes file_of_batch(bytes batch) {
    bytes out = memory(plain_needed(batch.bytes, batch.size).bytes);
    memset(out.bytes, 0, out.size);
    plain_write(batch.bytes, batch.size, out.bytes, out.size);
    return out;
}
