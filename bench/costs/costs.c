/* Makes a batch of one shape and runs each call on it once: see run. */
#include <stdio.h>
#include <stdlib.h>
#include <string.h>

#include "../../include/edge_sst.h"

static uint64_t state = 88172645463325252u;

/* xorshift64: the same numbers in each run. */
static uint64_t chance(uint64_t below) {
    state ^= state << 13;
    state ^= state >> 7;
    state ^= state << 17;
    return state % below;
}

static void put_id(uint8_t *at, uint64_t upper, uint64_t lower) {
    int i;
    for (i = 0; i < 8; i++) {
        at[i] = (uint8_t)(upper >> (56 - 8 * i));
        at[8 + i] = (uint8_t)(lower >> (56 - 8 * i));
    }
}

/* How far the next partner's upper half is: 'one' and 'two' in bytes of its varint, 'minute' as
 * UUIDs of version 7 of one minute, 'far' 2^49 and more, which makes a group dense. */
static uint64_t step(const char *shape, size_t degree) {
    if (strcmp(shape, "one") == 0)
        return 1 + chance(120);
    if (strcmp(shape, "two") == 0)
        return 128 + chance(16000);
    if (strcmp(shape, "minute") == 0)
        return ((1 + chance(60000 / degree + 1)) << 16) + chance(4096);
    return ((uint64_t)1 << 49) + chance((uint64_t)1 << 48);
}

static size_t make(const char *shape, size_t keys, size_t degree, uint8_t *batch) {
    size_t k, j, i;
    uint8_t *at = batch + EDGE_SST_HEADING_BYTES;
    uint64_t log = 0;
    memset(batch, 7, EDGE_SST_HEADING_BYTES);
    batch[0] = EDGE_SST_BATCH_HEADING;
    batch[1] = 0;
    for (k = 0; k < keys; k++) {
        uint64_t upper = strcmp(shape, "minute") == 0 ? 0x018f6e2a7c107000u : 0;
        for (j = 0; j < degree; j++, at += EDGE_SST_EDGE_BYTES, log++) {
            upper += step(shape, degree);
            at[0] = log % 16 == 0 ? EDGE_SST_BATCH_DEAD : EDGE_SST_BATCH_LIVE;
            put_id(at + 1, 1 + 3 * k, k);
            put_id(at + 17, upper, chance((uint64_t)1 << 62));
            for (i = 0; i < 8; i++)
                at[33 + i] = (uint8_t)(log >> (8 * i));
        }
    }
    return (size_t)(at - batch);
}

static void expect(uint64_t number) {
    if (number != 0) {
        fprintf(stderr, "costs: refused %lu\n", (unsigned long)number);
        exit(1);
    }
}

/* Log numbers of the last key, by the opened record: a start index tells where they begin, or there is none. */
__attribute__((noinline)) static EdgeSstLooked by_record(const uint8_t *file, size_t m, const EdgeSstOpened *o,
                                                         const uint8_t *key, uint8_t *out, size_t n, uint64_t *logs,
                                                         uint8_t *marks, size_t degree) {
    return edge_sst_lookup_with(file, m, o, key, out, n, logs, degree, marks, degree);
}

/* The same by a record that says there is no start index. */
__attribute__((noinline)) static EdgeSstLooked by_sum(const uint8_t *file, size_t m, const EdgeSstOpened *o,
                                                      const uint8_t *key, uint8_t *out, size_t n, uint64_t *logs,
                                                      uint8_t *marks, size_t degree) {
    EdgeSstOpened hidden = *o;
    hidden.indexed = 0;
    return edge_sst_lookup_with(file, m, &hidden, key, out, n, logs, degree, marks, degree);
}

/* costs SHAPE KEYS DEGREE: prints the file's bytes; valgrind counts the calls. */
int main(int argc, char **argv) {
    size_t keys, degree, n, m;
    uint8_t *batch, *file, *out, *marks, key[EDGE_SST_KEY_BYTES];
    uint64_t *logs;
    EdgeSstOpened o;
    if (argc != 4)
        return 2;
    keys = strtoul(argv[2], NULL, 10);
    degree = strtoul(argv[3], NULL, 10);
    n = EDGE_SST_HEADING_BYTES + EDGE_SST_EDGE_BYTES * keys * degree;
    batch = malloc(n), out = malloc(n), logs = malloc(8 * degree), marks = malloc(degree);
    if (batch == NULL || out == NULL || logs == NULL || marks == NULL || make(argv[1], keys, degree, batch) != n)
        return 2;
    m = (size_t)edge_sst_needed(batch, n).bytes;
    file = malloc(m);
    if (file == NULL)
        return 2;
    expect(edge_sst_write(batch, n, file, m).number);
    o = edge_sst_open(file, m);
    expect(o.number);
    expect(edge_sst_check(file, m).number);
    expect(edge_sst_summary(file, m).number);
    expect(edge_sst_read_out(file, m, out, n).number);
    if (memcmp(batch, out, n) != 0)
        return 1;
    put_id(key, 1 + 3 * (keys / 3), keys / 3);
    expect(edge_sst_partners_with(file, m, &o, key, out, n).number);
    put_id(key, 1 + 3 * (keys - 1), keys - 1);
    expect(by_record(file, m, &o, key, out, n, logs, marks, degree).number);
    expect(by_sum(file, m, &o, key, out, n, logs, marks, degree).number);
    printf("%lu\n", (unsigned long)m);
    return 0;
}
