/* What is wrong with a group of which a check in plain C has said that it is bad. Only
 * then is it read once more, for the number and the byte. */
#ifndef FAULT_H
#define FAULT_H

#include "format.h"
#include "plain.h"

/* 0 and the number and the place behind it, or the fault of the varint at `at`. */
static int number_fault(const uint8_t *g, uint64_t size, uint64_t at, uint64_t *x, uint64_t *next) {
    *x = 0;
    for (int k = 0; k < 10; k++) {
        if (at + k >= size)
            return EDGE_SST_VARINT_CUT;
        uint64_t byte = g[at + k];
        if (k == 9 && byte > 1)
            return EDGE_SST_VARINT_LARGE;
        *x |= (byte & 127) << 7 * k;
        *next = at + k + 1;
        if (byte < 128)
            return byte == 0 && k > 0 ? EDGE_SST_VARINT_LONG : 0;
    }
    return EDGE_SST_VARINT_LARGE;
}

/* The partner at `at`, whose halves are then told, and the place behind it; or its fault. */
static int partner_fault(const uint8_t *g, uint64_t size, uint64_t at, int dense, uint64_t *high, uint64_t *low,
                         uint64_t *next) {
    uint64_t difference;
    if (dense) {
        if (size - at < ID)
            return EDGE_SST_GROUP_CUT;
        *high = be64(g + at);
        *low = be64(g + at + HALF);
        *next = at + ID;
        return 0;
    }
    int fault = number_fault(g, size, at, &difference, next);
    if (fault)
        return fault;
    if (__builtin_add_overflow(*high, difference, high))
        return EDGE_SST_UPPER_HALF;
    if (size - *next < HALF)
        return EDGE_SST_GROUP_CUT;
    *low = le64(g + *next);
    *next += HALF;
    return 0;
}

/* The refusal of group i. */
static EdgeSstTold fault_of(const uint8_t *g, const uint8_t *end, uint64_t i) {
    uint64_t size = (uint64_t)(end - g), at = 0, degree, next, high = 0, low = 0;
    int fault = number_fault(g, size, 0, &degree, &next);
    if (!fault && degree == 0)
        fault = EDGE_SST_DEGREE_ZERO;
    if (!fault) {
        at = next;
        fault = at == size ? EDGE_SST_GROUP_CUT : g[at] != SPLIT && g[at] != DENSE ? EDGE_SST_TAG : 0;
    }
    for (uint64_t k = 0, dense = !fault && g[at++] == DENSE; !fault && k < degree; k++) {
        uint64_t last_high = high, last_low = low;
        fault = partner_fault(g, size, at, (int)dense, &high, &low, &next);
        if (!fault && k > 0 && (high < last_high || (high == last_high && low <= last_low)))
            fault = EDGE_SST_PARTNER_ORDER;
        if (!fault)
            at = next;
    }
    if (!fault)
        fault = EDGE_SST_SPARE_BYTES;
    return (EdgeSstTold){.number = (uint64_t)fault, .place = at, .beside = i};
}

#endif
