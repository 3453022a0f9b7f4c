/* Rule 22 alone, by any sum, of a file that opens: opening has looked at the table and the ranges. */
#ifndef RULE22_H
#define RULE22_H

#include "../../include/edge_sst.h"
#include "format.h"

typedef uint64_t summer(const uint8_t *p, size_t n);

static inline EdgeSstTold sums_by(summer *sum, const uint8_t *file, size_t size) {
    const uint8_t *body = file + size - le32(file + size - TRAILER + 8), *p = body + 2;
    uint64_t sections = le16(body);
    for (uint64_t i = 0; i < sections; i++) {
        if (sum(file + le64(p + 4), le64(p + 12)) != le64(p + 20))
            return (EdgeSstTold){.number = EDGE_SST_SUM, .place = i};
        p += ENTRY + p[3];
    }
    return (EdgeSstTold){.number = 0};
}

#endif
