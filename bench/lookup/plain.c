/* A record lookup in plain C: partners alone, or with log numbers and dead marks. Offsets,
 * varints and groups are read in a form of its own; bench/README.md says what that of
 * group.h would take. */
#include "../common/fault.h"
#include "../common/format.h"
#include "../common/plain.h"

#define INLINE __attribute__((always_inline)) static inline

static uint64_t offset_of(const uint8_t *p, size_t width) {
    uint64_t x = 0;
    switch (width) {
    case 3:
        return p[0] | (uint64_t)p[1] << 8 | (uint64_t)p[2] << 16;
    case 4:
        memcpy(&x, p, 4);
        return x;
    case 5:
        memcpy(&x, p, 5);
        return x;
    default:
        memcpy(&x, p, 6);
        return x;
    }
}

/* The varint at *p: 1 and *p behind it, or 0. */
static inline int varint(const uint8_t **p, const uint8_t *end, uint64_t *x) {
    const uint8_t *q = *p;
    if (q < end && *q < 128) {
        *x = *q;
        *p = q + 1;
        return 1;
    }
    uint64_t v = 0;
    for (int shift = 0;; shift += 7) {
        if (q == end)
            return 0;
        uint64_t b = *q++;
        if (shift == 63 && b > 1)
            return 0;
        v |= (b & 127) << shift;
        if (b < 128) {
            if (b == 0 && shift > 0)
                return 0;
            *x = v;
            *p = q;
            return 1;
        }
    }
}

static int inside(uint64_t size, uint64_t start, uint64_t len) { return start <= size && len <= size - start; }

static int record_good(size_t n, const EdgeSstOpened *o) {
    return n <= MOST_BYTES && inside(n, o->keystart, o->keylen) && inside(n, o->offsetstart, o->offsetlen) &&
           inside(n, o->partnerstart, o->partnerlen) && inside(n, o->logstart, o->loglen) &&
           (!o->marked || inside(n, o->deadstart, o->deadlen)) && o->keycount <= MOST_KEYS &&
           o->edgecount <= MOST_EDGES && (o->bits == 24 || o->bits == 32 || o->bits == 40 || o->bits == 48) &&
           o->keylen == ID * o->keycount && o->offsetlen == (o->keycount + 1) * (o->bits / 8) &&
           o->loglen == 8 * o->edgecount && (!o->marked || o->deadlen == tombstone_bytes(o->edgecount)) &&
           (!o->indexed || (inside(n, o->indexstart, o->indexlen) && o->indexlen == index_bytes(o->keycount)));
}

/* Do the partners of 16 bytes each from p to end, at least one, strictly increase? */
__attribute__((noinline)) static int dense_rise(const uint8_t *p, const uint8_t *end) {
    uint64_t hi = be64(p), lo = be64(p + 8);
    for (p += 16; p != end; p += 16) {
        uint64_t h = be64(p), l = be64(p + 8);
        if (h < hi || (h == hi && l <= lo))
            return 0;
        hi = h;
        lo = l;
    }
    return 1;
}

/* Whether a group is good, and then its degree and whether it is dense. fault.h says what is wrong with another. */
static int check_group(const uint8_t *p, const uint8_t *end, uint64_t *degree, int *dense) {
    uint64_t d, v, hi = 0, lo = 0;
    if (!varint(&p, end, &d))
        return 0;
    if (d == 0 || p == end)
        return 0;
    uint8_t tag = *p++;
    *degree = d;
    if (tag == DENSE) {
        *dense = 1;
        if ((uint64_t)(end - p) / 16 != d || (end - p) % 16 != 0)
            return 0;
        return dense_rise(p, end);
    }
    if (tag != SPLIT)
        return 0;
    *dense = 0;
    for (uint64_t k = 0; k < d; k++) {
        if (!varint(&p, end, &v))
            return 0;
        if (hi + v < hi || end - p < 8)
            return 0;
        uint64_t l = le64(p);
        if (k > 0 && v == 0 && l <= lo)
            return 0;
        hi += v;
        lo = l;
        p += 8;
    }
    return p == end;
}

static void fill_group(const uint8_t *p, const uint8_t *end, int dense, uint8_t *out) {
    uint64_t d = 0, v = 0, hi = 0;
    varint(&p, end, &d);
    p++;
    if (dense) {
        memcpy(out, p, 16 * d);
        return;
    }
    for (; d > 0; d--, p += 8, out += 16) {
        varint(&p, end, &v);
        hi += v;
        put_be64(out, hi);
        put_be64(out + 8, le64(p));
    }
}

/* What a lookup writes over; without log numbers the first two alone. */
typedef struct {
    uint8_t *out;
    size_t m;
    uint64_t *logs;
    size_t l;
    uint8_t *marks;
    size_t k;
} outputs;

/* Whether the offsets of group i are good, and then where it begins and ends. */
INLINE int group_of(const uint8_t *p, const EdgeSstOpened *o, uint64_t i, const uint8_t **start, const uint8_t **end) {
    size_t width = o->bits / 8;
    const uint8_t *at = p + o->offsetstart + width * i, *partners = p + o->partnerstart;
    uint64_t a = offset_of(at, width), e = offset_of(at + width, width);
    if (e < a || o->partnerlen < e)
        return 0;
    *start = partners + a;
    *end = partners + e;
    return 1;
}

/* The sum of the degrees before group i: 1, or 0 where one cannot be read or is 0, or they pass the edge count. */
static int summed(const uint8_t *p, const EdgeSstOpened *o, uint64_t i, uint64_t *sum) {
    uint64_t degree;
    const uint8_t *g, *end;
    *sum = 0;
    for (uint64_t j = 0; j < i; j++) {
        if (!group_of(p, o, j, &g, &end) || !varint(&g, end, &degree))
            return 0;
        if (degree == 0 || degree > o->edgecount - *sum)
            return 0;
        *sum += degree;
    }
    return 1;
}

/* Rule 19: 1 and the number of the first edge of group i, by the start index where the record has one. */
INLINE int first_edge(const uint8_t *p, const EdgeSstOpened *o, uint64_t i, uint64_t degree, uint64_t *first) {
    if (!o->indexed)
        return summed(p, o, i, first) && degree <= o->edgecount - *first;
    const uint8_t *start = p + o->indexstart + START * i;
    uint64_t end = le64(start + START);
    *first = le64(start);
    return end <= o->edgecount && *first <= end && end - *first == degree;
}

static void fill_edges(const uint8_t *p, const EdgeSstOpened *o, uint64_t first, uint64_t degree, const outputs *to) {
    memcpy(to->logs, p + o->logstart + 8 * first, 8 * degree);
    if (!o->marked) {
        memset(to->marks, 0, degree);
        return;
    }
    const uint8_t *dead = p + o->deadstart;
    for (uint64_t k = 0; k < degree; k++)
        to->marks[k] = dead[(first + k) / 8] >> (first + k) % 8 & 1;
}

/* Key i is found after so many comparisons. */
INLINE EdgeSstLooked found(const uint8_t *p, const EdgeSstOpened *o, uint64_t i, uint64_t compared, int with_logs,
                           outputs to) {
    const uint8_t *start, *end;
    uint64_t degree, first = 0;
    int dense;
    if (!group_of(p, o, i, &start, &end))
        return (EdgeSstLooked){.number = 14, .place = i};
    if (!check_group(start, end, &degree, &dense)) {
        EdgeSstTold told = fault_of(start, end, i);
        return (EdgeSstLooked){.number = told.number, .place = told.place, .beside = told.beside};
    }
    if (with_logs && !first_edge(p, o, i, degree, &first))
        return (EdgeSstLooked){.number = 19, .place = i};
    if (to.m / 16 < degree || (with_logs && (to.l < degree || to.k < degree)))
        return (EdgeSstLooked){.number = 20, .place = degree};
    fill_group(start, end, dense, to.out);
    if (with_logs)
        fill_edges(p, o, first, degree, &to);
    return (EdgeSstLooked){.found = 1, .degree = degree, .index = i, .compared = compared};
}

INLINE EdgeSstLooked looked(const uint8_t *p, size_t n, const EdgeSstOpened *o, const uint8_t key[16], int with_logs,
                            outputs to) {
    if (!record_good(n, o))
        return (EdgeSstLooked){.number = 21};
    const uint8_t *keys = p + o->keystart;
    uint64_t hi = be64(key), lo = be64(key + 8), low = 0, high = o->keycount, compared = 0;
    while (low < high) {
        uint64_t i = low + (high - low) / 2, h = be64(keys + 16 * i), l = be64(keys + 16 * i + 8);
        compared++;
        if (h == hi && l == lo)
            return found(p, o, i, compared, with_logs, to);
        if (h < hi || (h == hi && l < lo))
            low = i + 1;
        else
            high = i;
    }
    return (EdgeSstLooked){.compared = compared};
}

EdgeSstLooked plain_partners_with(const uint8_t *p, size_t n, const EdgeSstOpened *o, const uint8_t key[16],
                                  uint8_t *out, size_t m) {
    return looked(p, n, o, key, 0, (outputs){.out = out, .m = m});
}

EdgeSstLooked plain_lookup_with(const uint8_t *p, size_t n, const EdgeSstOpened *o, const uint8_t key[16], uint8_t *out,
                                size_t m, uint64_t *logs, size_t l, uint8_t *marks, size_t k) {
    return looked(p, n, o, key, 1, (outputs){out, m, logs, l, marks, k});
}
