/* Makes batches to be written, and the files that plain C makes of them. */
#ifndef BATCH_H
#define BATCH_H

#include "harness.h"

typedef enum { TIMES, SPAN, NEAR } ids;

/* So many keys with so many partners each.
 * TIMES: ids of version 7. Of four keys `spread` have partners from one year, the
 *   others from one minute: with 8 partners the differences of their upper halves take 7
 *   bytes, and 4 or 5.
 * SPAN: ids of version 7, from a millisecond to 18 hours apart, each power of two
 *   alike: 3 to 6 bytes.
 * NEAR: upper halves 1 to 200 apart: 1 byte or 2. */
typedef struct {
    uint64_t keys, degree;
    ids ids;
    uint64_t spread;
} batch_plan;

/* Log numbers rise, and one edge in 16 is dead. */
bytes batch_of(const batch_plan *w);

/* 2^20 edges: 2^17 keys of 8 partners, 1 or 2 bytes apart, or 3 to 6; and 2^9 keys of
 * 2,048 partners, whose groups are dense. */
extern const batch_plan near_1m, v7_1m, dense_1m;

/* The file: exactly its room, and the file stands in it. */
bytes file_of_batch(bytes batch);

#endif
