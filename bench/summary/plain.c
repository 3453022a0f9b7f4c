/* The summary in plain C: the full check, and then a pass over degrees, log numbers and tombstones. */
#include "../common/group.h"

/* The bucket of a degree, which is not 0. */
static inline int bucket_of(uint64_t degree) { return 63 - __builtin_clzll(degree); }

static inline void sum_degrees(const uint8_t *file, const EdgeSstOpened *o, EdgeSstSummary *s) {
    const uint8_t *partners = file + o->partnerstart, *end = partners + o->partnerlen;
    const uint8_t *offset = file + o->offsetstart;
    size_t width = o->bits / 8;
    uint64_t degree = 0;
    for (uint64_t i = 0; i < o->keycount; i++, offset += width) {
        const uint8_t *group = partners + offset_at(offset, width);
        varint(&group, end, &degree);
        s->buckets[bucket_of(degree)]++;
        if (degree > s->largestdegree)
            s->largestdegree = degree;
    }
}

/* Of a file that has edges. */
static inline void sum_logs(const uint8_t *log, uint64_t count, EdgeSstSummary *s) {
    uint64_t smallest = le64(log), largest = smallest;
    for (uint64_t i = 1; i < count; i++) {
        uint64_t x = le64(log + 8 * i);
        smallest = x < smallest ? x : smallest;
        largest = x > largest ? x : largest;
    }
    s->smallestlog = smallest;
    s->largestlog = largest;
}

/* The ones in n bytes. */
static inline uint64_t ones(const uint8_t *p, size_t n) {
    uint64_t sum = 0;
    for (; n >= 8; p += 8, n -= 8)
        sum += (uint64_t)__builtin_popcountll(le64(p));
    for (; n > 0; p++, n--)
        sum += (uint64_t)__builtin_popcount(*p);
    return sum;
}

/* The full check of a file that opens as o, or its refusal. */
static inline EdgeSstTold checked(const uint8_t *p, size_t n, const EdgeSstOpened *o) {
    if (o->number != 0)
        return (EdgeSstTold){.number = o->number, .place = o->place};
    EdgeSstTold told = plain_sums(p, n);
    return told.number != 0 ? told : plain_edges(p, o);
}

EdgeSstSummary plain_summary(const uint8_t *p, size_t n) {
    EdgeSstSummary s = {.number = 0};
    EdgeSstOpened o = plain_open(p, n);
    EdgeSstTold told = checked(p, n, &o);
    if (told.number != 0) {
        s.number = told.number, s.place = told.place, s.beside = told.beside;
        return s;
    }
    s.keycount = o.keycount, s.edgecount = o.edgecount;
    if (o.marked)
        s.tombstones = ones(p + o.deadstart, o.deadlen);
    if (o.edgecount > 0) {
        s.extremes = 1;
        memcpy(s.smallestkey, p + o.keystart, ID);
        memcpy(s.largestkey, p + o.keystart + o.keylen - ID, ID);
        sum_logs(p + o.logstart, o.edgecount, &s);
        sum_degrees(p, &o, &s);
    }
    return s;
}
