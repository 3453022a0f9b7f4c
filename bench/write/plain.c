/* The writer in plain C: the batch is checked and counted in one pass, its groups
 * measured in a second, and all sections but the fences written in a third. No
 * heap. For little-endian machines. */
#include "../common/sum.h"

#include "../common/format.h"
#include "../common/plain.h"

enum { MOST_BY_COST = 1024 };

/* What is known before anything is written. */
typedef struct {
    uint64_t keys, edges, partners, width, fences, size;
    int dead, dense, starts;
} counts;

static inline EdgeSstDone refused(uint64_t number, uint64_t place) { return (EdgeSstDone){.number = number, .place = place}; }

/* 1 if the id at a is above the id at b, -1 if below, 0 if they are equal. */
static inline int order(const uint8_t *a, const uint8_t *b) {
    uint64_t x = be64(a), y = be64(b);
    if (x == y) {
        x = be64(a + HALF);
        y = be64(b + HALF);
    }
    return (x > y) - (x < y);
}

/* Every record, and how many keys and edges they are, and whether one is dead. */
static EdgeSstDone check(const uint8_t *p, size_t n, counts *c) {
    if (n < HEADING || p[0] != HEAD || p[1] > 1)
        return refused(24, 0);
    const uint8_t *end = p + n, *last = NULL;
    uint64_t keys = 0, edges = 0;
    unsigned kinds = 0;
    for (const uint8_t *e = p + HEADING; e != end; last = e, e += EDGE, edges++) {
        if ((*e != LIVE_EDGE && *e != DEAD_EDGE) || end - e < EDGE)
            return refused(24, (uint64_t)(e - p));
        kinds |= *e;
        int o = last == NULL ? 1 : order(e + RECORD_KEY, last + RECORD_KEY);
        if (o < 0 || (o == 0 && order(e + RECORD_PARTNER, last + RECORD_PARTNER) <= 0))
            return refused(25, (uint64_t)(e - p));
        keys += o > 0;
    }
    c->keys = keys;
    c->edges = edges;
    c->dead = (kinds & DEAD_EDGE) != 0;
    return refused(0, 0);
}

static inline uint64_t varint_length(uint64_t x) { return (63 - (unsigned)__builtin_clzll(x | 1)) / 7 + 1; }

/* One key's edges. */
typedef struct {
    const uint8_t *first, *end;
    uint64_t degree, cost;
    int dense;
} group;

/* The group that begins at e: its end, its split cost and its form. */
static inline group group_at(const uint8_t *e, const uint8_t *end, uint64_t keys) {
    group g = {.first = e};
    uint64_t last = 0, high_key = le64(e + RECORD_KEY), low_key = le64(e + RECORD_KEY + HALF);
    do {
        uint64_t high = be64(e + RECORD_PARTNER);
        g.cost += varint_length(high - last) + HALF;
        last = high;
        g.degree++;
        e += EDGE;
    } while (e != end && le64(e + RECORD_KEY) == high_key && le64(e + RECORD_KEY + HALF) == low_key);
    g.end = e;
    g.dense = g.cost >= ID * g.degree || (g.degree > MOST_BY_COST && g.degree * g.degree > 16 * keys);
    return g;
}

static inline uint64_t sections_of(const counts *c) {
    return 4 + (uint64_t)c->dead + (c->fences != 0) + (uint64_t)c->starts;
}

/* The partners' bytes and the file's. */
static void measure(const uint8_t *p, size_t n, counts *c) {
    const uint8_t *e = p + HEADING, *end = p + n;
    uint64_t bytes = 0;
    int dense = 0;
    while (e != end) {
        group g = group_at(e, end, c->keys);
        bytes += varint_length(g.degree) + 1 + (g.dense ? ID * g.degree : g.cost);
        dense |= g.dense;
        e = g.end;
    }
    c->partners = bytes;
    c->dense = dense;
    c->width = bytes < 1 << 24 ? 3 : 4;
    c->fences = c->keys > MOST_WITHOUT_FENCES ? (c->keys + STRIDE - 1) / STRIDE : 0;
    c->starts = c->keys >= LEAST_WITH_STARTS;
    c->size = HEADER + ID * c->keys + c->width * (c->keys + 1) + bytes + 8 * c->edges +
              (c->dead ? tombstone_bytes(c->edges) : 0) + (c->fences ? 8 + 24 * c->fences : 0) +
              (c->starts ? index_bytes(c->keys) : 0) + 2 + ENTRY * sections_of(c) + 17 + TRAILER;
}

static EdgeSstDone plan(const uint8_t *p, size_t n, counts *c) {
    EdgeSstDone told = check(p, n, c);
    if (told.number != 0)
        return told;
    if (c->keys > MOST_KEYS || c->edges > MOST_EDGES)
        return refused(26, 0);
    measure(p, n, c);
    return c->size > MOST_BYTES ? refused(26, 0) : (EdgeSstDone){.bytes = c->size};
}

EdgeSstDone plain_needed(const uint8_t *p, size_t n) {
    counts c;
    return plan(p, n, &c);
}

static inline uint8_t *put_group(uint8_t *p, const group *g) {
    p = put_varint(p, g->degree);
    if (g->dense) {
        *p++ = DENSE;
        for (const uint8_t *e = g->first; e != g->end; e += EDGE, p += ID)
            memcpy(p, e + RECORD_PARTNER, ID);
        return p;
    }
    *p++ = SPLIT;
    uint64_t last = 0;
    for (const uint8_t *e = g->first; e != g->end; e += EDGE, p += HALF) {
        uint64_t high = be64(e + RECORD_PARTNER);
        p = put_varint(p, high - last);
        last = high;
        put64(p, be64(e + RECORD_PARTNER + HALF));
    }
    return p;
}

static inline void put_offset(uint8_t *p, size_t width, uint64_t x) {
    put(p, 2, x);
    p[2] = (uint8_t)(x >> 16);
    if (width == 4)
        p[3] = (uint8_t)(x >> 24);
}

/* Where each section begins. */
typedef struct {
    uint8_t *keys, *offsets, *partners, *logs, *dead, *fences, *starts, *footer;
} places;

static places places_of(uint8_t *out, const counts *c) {
    places s = {.keys = out + HEADER};
    s.offsets = s.keys + ID * c->keys;
    s.partners = s.offsets + c->width * (c->keys + 1);
    s.logs = s.partners + c->partners;
    s.dead = s.logs + 8 * c->edges;
    s.fences = s.dead + (c->dead ? tombstone_bytes(c->edges) : 0);
    s.starts = s.fences + (c->fences ? 8 + 24 * c->fences : 0);
    s.footer = s.starts + (c->starts ? index_bytes(c->keys) : 0);
    return s;
}

static void put_header(uint8_t *out, const uint8_t *batch, const counts *c) {
    memcpy(out, magic, 8);
    memset(out + 8, 0, 8);
    out[8] = 1;
    out[9] = (uint8_t)c->starts; /* minor 1 exactly with a start index */
    out[10] = HEADER;
    out[12] = (uint8_t)(HAS_DEAD * c->dead + HAS_DENSE * c->dense + INVERSE * batch[1]);
    memcpy(out + 16, batch + 2, 48);
}

/* Keys, offsets, partners, log numbers, tombstones and the start index. */
static void put_edges(const uint8_t *p, size_t n, const counts *c, places s) {
    const uint8_t *e = p + HEADING, *end = p + n;
    uint8_t *partner = s.partners, *log = s.logs;
    uint64_t edge = 0;
    if (c->dead)
        memset(s.dead, 0, tombstone_bytes(c->edges));
    while (e != end) {
        group g = group_at(e, end, c->keys);
        memcpy(s.keys, e + RECORD_KEY, ID);
        s.keys += ID;
        put_offset(s.offsets, c->width, (uint64_t)(partner - s.partners));
        s.offsets += c->width;
        if (c->starts) {
            put64(s.starts, edge);
            s.starts += START;
        }
        partner = put_group(partner, &g);
        for (; e != g.end; e += EDGE, edge++, log += 8) {
            memcpy(log, e + RECORD_LOG, 8);
            if (*e == DEAD_EDGE)
                s.dead[edge / 8] |= (uint8_t)(1 << edge % 8);
        }
    }
    put_offset(s.offsets, c->width, (uint64_t)(partner - s.partners));
    if (c->starts)
        put64(s.starts, edge);
}

static void put_fences(const counts *c, places s) {
    uint8_t *p = s.fences;
    if (c->fences == 0)
        return;
    put32(p, STRIDE);
    put32(p + 4, c->fences);
    p += 8;
    for (uint64_t i = 0; i < c->fences; i++, p += 24) {
        memcpy(p, s.keys + ID * STRIDE * i, ID);
        put64(p + ID, ID * STRIDE * i);
    }
}

/* An entry of the table: the bytes from start to end. */
static uint8_t *put_entry(uint8_t *p, unsigned kind, const uint8_t *out, const uint8_t *start, const uint8_t *end) {
    put32(p, kind);
    put64(p + 4, (uint64_t)(start - out));
    put64(p + 12, (uint64_t)(end - start));
    put64(p + 20, XXH3_64bits(start, (size_t)(end - start)));
    return p + ENTRY;
}

static void put_footer(uint8_t *out, const counts *c, places s) {
    uint8_t *p = s.footer + 2;
    put(s.footer, 2, sections_of(c));
    p = put_entry(p, 1, out, s.keys, s.offsets);
    p = put_entry(p, 2, out, s.offsets, s.partners);
    p = put_entry(p, 3, out, s.partners, s.logs);
    p = put_entry(p, 4, out, s.logs, s.dead);
    if (c->dead)
        p = put_entry(p, 5, out, s.dead, s.fences);
    if (c->fences)
        p = put_entry(p, 6, out, s.fences, s.starts);
    if (c->starts)
        p = put_entry(p, START_INDEX, out, s.starts, s.footer);
    put64(p, c->keys);
    put64(p + 8, c->edges);
    p[16] = (uint8_t)(8 * c->width);
    p += 17;
    put64(p, XXH3_64bits(s.footer, (size_t)(p - s.footer)));
    put32(p + 8, (uint64_t)(p - s.footer) + TRAILER);
    memcpy(p + 12, magic, 8);
}

EdgeSstDone plain_write(const uint8_t *p, size_t n, uint8_t *out, size_t m) {
    counts c;
    EdgeSstDone told = plan(p, n, &c);
    if (told.number != 0)
        return told;
    if (m < c.size)
        return refused(20, c.size);
    places s = places_of(out, &c);
    put_header(out, p, &c);
    put_edges(p, n, &c, s);
    put_fences(&c, s);
    put_footer(out, &c, s);
    return told;
}
