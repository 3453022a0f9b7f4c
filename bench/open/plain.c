/* Opening in plain C: rules 1 to 15, 36 and 37 in their order, and the header. For little-endian machines. */
#include "../common/sum.h"

#include "../common/format.h"
#include "../common/plain.h"

enum { NEEDED = 1 << KEYS | 1 << OFFSETS | 1 << PARTNERS | 1 << LOGS };

#define NONE SIZE_MAX
#define INLINE __attribute__((always_inline)) static inline

typedef struct {
    uint64_t start, length;
} range;

static inline EdgeSstTold told(uint64_t number, uint64_t place) { return (EdgeSstTold){.number = number, .place = place}; }

static inline EdgeSstOpened refused(uint64_t number, uint64_t place) {
    return (EdgeSstOpened){.number = number, .place = place};
}

/* Rule 13: the first of n keys that is not above the one before it, or NONE. */
static inline size_t bad_key(const uint8_t *keys, size_t n) {
    if (n == 0)
        return NONE;
    const uint8_t *end = keys + ID * n;
    uint64_t last_high = be64(keys), last_low = be64(keys + 8);
    for (const uint8_t *p = keys + ID; p != end; p += ID) {
        uint64_t high = be64(p), low = be64(p + 8);
        if (!(high > last_high || (high == last_high && low > last_low)))
            return (size_t)(p - keys) / ID;
        last_high = high;
        last_low = low;
    }
    return NONE;
}

/* Rule 14: the first of n + 1 offsets that breaks it, or NONE. */
INLINE size_t bad_offset_of(const uint8_t *offsets, size_t n, uint64_t length, size_t width) {
    const uint8_t *end = offsets + width * (n + 1);
    uint64_t last = offset_at(offsets, width);
    if (last != 0)
        return 0;
    for (const uint8_t *p = offsets + width; p != end; p += width) {
        uint64_t offset = offset_at(p, width);
        if (offset <= last)
            return (size_t)(p - offsets) / width;
        last = offset;
    }
    return last == length ? NONE : n;
}

static inline size_t bad_offset(const uint8_t *offsets, size_t n, uint64_t length, size_t width) {
    switch (width) {
    case 3:
        return bad_offset_of(offsets, n, length, 3);
    case 4:
        return bad_offset_of(offsets, n, length, 4);
    case 5:
        return bad_offset_of(offsets, n, length, 5);
    default:
        return bad_offset_of(offsets, n, length, 6);
    }
}

/* Rule 15, of n keys. */
static inline int fences_good(const uint8_t *fences, uint64_t length, const uint8_t *keys, uint64_t n) {
    if (length < FENCES_HEAD)
        return 0;
    uint64_t stride = le32(fences), count = le32(fences + 4);
    if (stride == 0 || count != (n + stride - 1) / stride || length != FENCES_HEAD + FENCE * count)
        return 0;
    const uint8_t *p = fences + FENCES_HEAD, *end = fences + length;
    for (uint64_t place = 0; p != end; p += FENCE, place += ID * stride)
        if (le64(p) != le64(keys + place) || le64(p + 8) != le64(keys + place + 8) || le64(p + ID) != place)
            return 0;
    return 1;
}

/* Rule 37: the first of n + 1 starts that breaks it, or NONE. */
static inline size_t bad_start(const uint8_t *starts, size_t n, uint64_t edges) {
    const uint8_t *end = starts + index_bytes(n);
    uint64_t last = le64(starts);
    if (last != 0)
        return 0;
    for (const uint8_t *p = starts + START; p != end; p += START) {
        uint64_t start = le64(p);
        if (start <= last)
            return (size_t)(p - starts) / START;
        last = start;
    }
    return last == edges ? NONE : n;
}

/* Where things stand, by the file's two ends. */
typedef struct {
    const uint8_t *trailer, *body;
    uint64_t flags, sections_end;
} ends;

/* Rules 1 to 8: the first that is broken, or 0. */
INLINE uint64_t ends_fault(const uint8_t *file, size_t size, ends *e) {
    if (size < HEADER + TRAILER || size > MOST_BYTES)
        return 1;
    if (memcmp(file, magic, sizeof magic) != 0)
        return 2;
    if (file[8] != 1)
        return 3;
    if (le16(file + 10) != HEADER)
        return 4;
    e->flags = le32(file + 12);
    if (e->flags >> 4 != 0)
        return 5;
    e->trailer = file + size - TRAILER;
    if (memcmp(e->trailer + 12, magic, sizeof magic) != 0)
        return 6;
    uint64_t footer = le32(e->trailer + 8);
    if (footer < 2 + FOOTER_COUNTS + TRAILER || footer > size - HEADER)
        return 7;
    e->sections_end = size - footer;
    e->body = file + e->sections_end;
    if (XXH3_64bits(e->body, footer - TRAILER) != le64(e->trailer))
        return 8;
    return 0;
}

enum { STARTS = FENCES + 1 }; /* the place of the start index; kinds 1 to 6 have those of their numbers */

/* What the table says of the kinds that are read, and whether there is a property stream. */
typedef struct {
    range found[STARTS + 1];
    unsigned seen;
    int properties;
} table;

static inline int seen(const table *t, unsigned place) { return t->seen >> place & 1; }

/* Rules 9 to 11, with 36. An entry can be read anywhere in the table, as 17 and 20 bytes follow. */
INLINE EdgeSstTold table_fault(const uint8_t *body, const uint8_t *counts, uint64_t sections_end, table *t) {
    uint64_t sections = le16(body), floor = HEADER;
    if (sections < 1 || sections > 64)
        return told(9, 0);
    const uint8_t *p = body + 2;
    size_t reserved = NONE, bad_codec = NONE, bad_range = NONE;
    t->seen = 0;
    t->properties = 0;
    t->found[TOMBSTONES] = t->found[FENCES] = t->found[STARTS] = (range){0, 0};
    for (size_t i = 0; i < sections; i++) {
        uint64_t kind = le16(p), name = p[3];
        range r = {le64(p + 4), le64(p + 12)};
        if (name > 63 || (uint64_t)(counts - p) < ENTRY + name)
            return told(9, 0);
        if ((kind >= KEYS && kind <= FENCES) || kind == START_INDEX) {
            unsigned place = kind == START_INDEX ? STARTS : (unsigned)kind;
            if (name != 0 || seen(t, place))
                return told(9, 0);
            t->seen |= 1u << place;
            t->found[place] = r;
            if (p[2] != 0 && bad_codec == NONE)
                bad_codec = i;
        } else if (kind == PROPERTIES) {
            t->properties = 1;
        } else if (kind >= RESERVED_FIRST && kind <= RESERVED_LAST && reserved == NONE) {
            reserved = i;
        }
        if (bad_range == NONE && (r.start < floor || r.start > sections_end || r.length > sections_end - r.start))
            bad_range = i;
        floor = r.start + r.length;
        p += ENTRY + name;
    }
    if (p != counts || (t->seen & NEEDED) != NEEDED)
        return told(9, 0);
    if (reserved != NONE)
        return told(36, reserved);
    if (bad_codec != NONE)
        return told(10, bad_codec);
    return bad_range != NONE ? told(11, bad_range) : told(0, 0);
}

/* Rule 12. */
INLINE int counts_good(uint64_t flags, const table *t, uint64_t n, uint64_t edges, uint64_t bits) {
    const range *found = t->found;
    int marked = seen(t, TOMBSTONES), fenced = seen(t, FENCES);
    return !(n > MOST_KEYS || edges > MOST_EDGES || (bits != 24 && bits != 32 && bits != 40 && bits != 48) ||
             found[KEYS].length != ID * n || found[OFFSETS].length != (n + 1) * (bits / 8) ||
             found[LOGS].length != 8 * edges || (marked && found[TOMBSTONES].length != tombstone_bytes(edges)) ||
             (seen(t, STARTS) && found[STARTS].length != index_bytes(n)) || edges < n || (n == 0 && edges > 0) ||
             (n > MOST_WITHOUT_FENCES && !fenced) || ((flags & HAS_PROPERTIES) != 0) != t->properties ||
             ((flags & HAS_DEAD) != 0 && !marked));
}

/* Rules 13 to 15 and 37. */
INLINE EdgeSstTold content_fault(const uint8_t *file, const table *t, uint64_t n, uint64_t edges, uint64_t bits) {
    const range *found = t->found;
    const uint8_t *keys = file + found[KEYS].start;
    size_t bad = bad_key(keys, n);
    if (bad != NONE)
        return told(13, bad);
    bad = bad_offset(file + found[OFFSETS].start, n, found[PARTNERS].length, bits / 8);
    if (bad != NONE)
        return told(14, bad);
    if (seen(t, FENCES) && !fences_good(file + found[FENCES].start, found[FENCES].length, keys, n))
        return told(15, 0);
    bad = seen(t, STARTS) ? bad_start(file + found[STARTS].start, n, edges) : NONE;
    return bad != NONE ? told(37, bad) : told(0, 0);
}

EdgeSstOpened plain_open(const uint8_t *file, size_t size) {
    ends e;
    uint64_t fault = ends_fault(file, size, &e);
    if (fault != 0)
        return refused(fault, 0);
    const uint8_t *counts = e.trailer - FOOTER_COUNTS;
    table t;
    EdgeSstTold wrong = table_fault(e.body, counts, e.sections_end, &t);
    if (wrong.number != 0)
        return refused(wrong.number, wrong.place);
    uint64_t n = le64(counts), edges = le64(counts + 8), bits = counts[16];
    if (!counts_good(e.flags, &t, n, edges, bits))
        return refused(12, 0);
    EdgeSstTold bad = content_fault(file, &t, n, edges, bits);
    if (bad.number != 0)
        return refused(bad.number, bad.place);
    return (EdgeSstOpened){
        .keystart = t.found[KEYS].start,
        .keylen = t.found[KEYS].length,
        .offsetstart = t.found[OFFSETS].start,
        .offsetlen = t.found[OFFSETS].length,
        .partnerstart = t.found[PARTNERS].start,
        .partnerlen = t.found[PARTNERS].length,
        .logstart = t.found[LOGS].start,
        .loglen = t.found[LOGS].length,
        .deadstart = t.found[TOMBSTONES].start,
        .deadlen = t.found[TOMBSTONES].length,
        .marked = (uint64_t)seen(&t, TOMBSTONES),
        .keycount = n,
        .edgecount = edges,
        .bits = bits,
        .indexstart = t.found[STARTS].start,
        .indexlen = t.found[STARTS].length,
        .indexed = (uint64_t)seen(&t, STARTS),
    };
}

EdgeSstHeader plain_header(const uint8_t *file, size_t size) {
    EdgeSstOpened o = plain_open(file, size);
    if (o.number != 0)
        return (EdgeSstHeader){.number = o.number, .place = o.place};
    uint64_t flags = le32(file + 12);
    EdgeSstHeader h = {.minor = file[9], .direction = flags >> 3 & 1, .flags = flags};
    memcpy(h.edgetype, file + 16, ID);
    memcpy(h.source, file + 32, ID);
    memcpy(h.destination, file + 48, ID);
    return h;
}
