/* The full check in plain C: opening, 22, all groups, 23. */
#include "../common/sum.h"

#include "../common/fault.h"
#include "../common/group.h"
#include "../common/rule22.h"

static inline int any_set(const uint8_t *p, size_t n) {
    uint8_t all = 0;
    for (size_t i = 0; i < n; i++)
        all |= p[i];
    return all != 0;
}

/* All groups, then rule 23, of a file that opens as o: opening has held the index's last entry to the edge count. */
EdgeSstTold plain_edges(const uint8_t *file, const EdgeSstOpened *o) {
    const uint8_t *partners = file + o->partnerstart, *offset = file + o->offsetstart;
    const uint8_t *start = partners, *end, *index = o->indexed ? file + o->indexstart : NULL;
    size_t width = o->bits / 8;
    uint64_t sum = 0, degree, count = o->edgecount;
    int dense, some_dense = 0, some_dead = 0, unused = 0, unlike = 0;
    for (uint64_t i = 0; i < o->keycount; i++, start = end) {
        offset += width;
        end = partners + offset_at(offset, width);
        if (!group_good(start, end, &degree, &dense))
            return fault_of(start, end, i);
        if (index != NULL)
            unlike |= le64(index + START * i) != sum;
        sum += degree;
        some_dense |= dense;
    }
    if (o->marked) {
        const uint8_t *dead = file + o->deadstart;
        some_dead = any_set(dead, count / 8);
        if (count % 8 != 0) {
            unsigned last = dead[count / 8];
            some_dead |= (last & ((1u << count % 8) - 1)) != 0;
            unused = last >> count % 8 != 0;
        }
    }
    uint64_t flags = le32(file + 12);
    if (sum != count || ((flags & HAS_DEAD) != 0) != some_dead || ((flags & HAS_DENSE) != 0) != some_dense || unused ||
        unlike)
        return (EdgeSstTold){.number = EDGE_SST_DATA};
    return (EdgeSstTold){.number = 0};
}

/* Rule 22 by xxHash. */
static uint64_t xxhash(const uint8_t *p, size_t n) { return XXH3_64bits(p, n); }

EdgeSstTold plain_sums(const uint8_t *p, size_t n) { return sums_by(xxhash, p, n); }

EdgeSstTold plain_check(const uint8_t *p, size_t n) {
    EdgeSstOpened o = plain_open(p, n);
    if (o.number != 0)
        return (EdgeSstTold){.number = o.number, .place = o.place};
    EdgeSstTold told = plain_sums(p, n);
    return told.number != 0 ? told : plain_edges(p, &o);
}
