/* The read-out in plain C: the full check, and then the batch's records. */
#include "../common/group.h"

static void put_heading(uint8_t *out, const uint8_t *file) {
    out[0] = HEAD;
    out[1] = (le32(file + 12) & INVERSE) != 0;
    memcpy(out + 2, file + 16, 48);
}

/* The kind of edge e; `dead` is NULL where there are no tombstones. */
static inline uint8_t kind_of(const uint8_t *dead, uint64_t e) {
    return dead != NULL && (dead[e / 8] >> e % 8 & 1) ? DEAD_EDGE : LIVE_EDGE;
}

/* Where the next record goes, and what it is made of. */
typedef struct {
    const uint8_t *key, *log, *dead;
    uint64_t edge;
    uint8_t *out;
} place;

/* All of the next record but its partner, whose place is given. */
static inline uint8_t *next_record(place *at) {
    uint8_t *out = at->out;
    *out = kind_of(at->dead, at->edge++);
    memcpy(out + RECORD_KEY, at->key, ID);
    memcpy(out + RECORD_LOG, at->log, 8);
    at->log += 8;
    at->out += EDGE;
    return out + RECORD_PARTNER;
}

/* The edges of a group that has been checked. */
static inline void put_group(const uint8_t *p, const uint8_t *end, place *at) {
    uint64_t degree = 0, difference = 0, high = 0;
    varint(&p, end, &degree);
    if (*p++ == DENSE) {
        for (; p != end; p += ID)
            memcpy(next_record(at), p, ID);
        return;
    }
    for (; p != end; p += HALF) {
        varint(&p, end, &difference);
        high += difference;
        uint8_t *partner = next_record(at);
        put_be64(partner, high);
        put_be64(partner + HALF, le64(p));
    }
}

static void put_edges(const uint8_t *file, const EdgeSstOpened *o, uint8_t *out) {
    const uint8_t *partners = file + o->partnerstart, *offset = file + o->offsetstart;
    const uint8_t *start = partners, *end;
    size_t width = o->bits / 8;
    place at = {file + o->keystart, file + o->logstart, o->marked ? file + o->deadstart : NULL, 0, out};
    for (uint64_t i = 0; i < o->keycount; i++, start = end, at.key += ID) {
        offset += width;
        end = partners + offset_at(offset, width);
        put_group(start, end, &at);
    }
}

EdgeSstDone plain_read_out(const uint8_t *p, size_t n, uint8_t *out, size_t m) {
    EdgeSstOpened o = plain_open(p, n);
    if (o.number != 0)
        return (EdgeSstDone){.number = o.number, .place = o.place};
    EdgeSstTold told = plain_sums(p, n);
    if (told.number == 0)
        told = plain_edges(p, &o);
    if (told.number != 0)
        return (EdgeSstDone){.number = told.number, .place = told.place, .beside = told.beside};
    uint64_t needed = HEADING + EDGE * o.edgecount;
    if (m < needed)
        return (EdgeSstDone){.number = EDGE_SST_ROOM, .place = needed};
    put_heading(out, p);
    put_edges(p, &o, out + HEADING);
    return (EdgeSstDone){.bytes = needed};
}
