/* How plain C reads a group. With SPARING defined the lower halves of dense partners
 * are read only where the upper ones are equal. */
#ifndef GROUP_H
#define GROUP_H

#include "format.h"
#include "plain.h"

/* The varint at *at, which is moved behind it. 1 if it is a good one. */
static inline int varint(const uint8_t **at, const uint8_t *end, uint64_t *x) {
    const uint8_t *p = *at;
    if (p == end)
        return 0;
    uint64_t sum = *p++;
    if (sum >= 128) {
        uint64_t byte, shift = 7;
        sum &= 127;
        do {
            if (p == end)
                return 0;
            byte = *p++;
            if (shift == 63 && byte > 1)
                return 0;
            sum |= (byte & 127) << shift;
            shift += 7;
        } while (byte >= 128);
        if (byte == 0)
            return 0;
    }
    *at = p;
    *x = sum;
    return 1;
}

/* Do the partners of 16 bytes each from p to end, at least one, rise? */
static inline int dense_rises(const uint8_t *p, const uint8_t *end) {
#ifndef SPARING
    uint64_t last_high = be64(p), last_low = be64(p + HALF);
    for (p += ID; p != end; p += ID) {
        uint64_t high = be64(p), low = be64(p + HALF);
        if (!(high > last_high || (high == last_high && low > last_low)))
            return 0;
        last_high = high;
        last_low = low;
    }
#else
    uint64_t last = be64(p);
    for (p += ID; p != end; p += ID) {
        uint64_t high = be64(p);
        if (high <= last && (high < last || be64(p + HALF) <= be64(p - HALF)))
            return 0;
        last = high;
    }
#endif
    return 1;
}

/* The next partner of a split group: its upper half's difference and its lower half. 1 if it is a good one. */
static inline int split_partner(const uint8_t **at, const uint8_t *end, uint64_t *difference, uint64_t *low) {
    if (!varint(at, end, difference))
        return 0;
    if (end - *at < HALF)
        return 0;
    *low = le64(*at);
    *at += HALF;
    return 1;
}

static inline int split_good(const uint8_t *p, const uint8_t *end, uint64_t degree) {
    uint64_t high, last_low, difference, low;
    if (!split_partner(&p, end, &high, &last_low))
        return 0;
    for (uint64_t k = 1; k < degree; k++) {
        if (!split_partner(&p, end, &difference, &low))
            return 0;
        if (difference == 0 && low <= last_low)
            return 0;
        if (__builtin_add_overflow(high, difference, &high))
            return 0;
        last_low = low;
    }
    return p == end;
}

/* Whether a group is good, and then its degree and whether it is dense. fault.h says what is wrong with another. */
static inline int group_good(const uint8_t *p, const uint8_t *end, uint64_t *degree, int *dense) {
    if (!varint(&p, end, degree))
        return 0;
    if (*degree == 0 || p == end)
        return 0;
    uint8_t tag = *p++;
    *dense = tag == DENSE;
    if (tag == SPLIT)
        return split_good(p, end, *degree);
    if (tag != DENSE)
        return 0;
    size_t size = (size_t)(end - p);
    return size % ID == 0 && size / ID == *degree && dense_rises(p, end);
}

#endif
