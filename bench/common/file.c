#include "sum.h"

#include "file.h"
#include "format.h"

content room_for(uint64_t keys, size_t partners) {
    content c = {.key = memory(ID * keys).bytes, .partners = memory(partners).bytes};
    c.offset = (uint32_t *)memory(4 * (keys + 1)).bytes;
    c.start = (uint32_t *)memory(4 * (keys + 1)).bytes;
    c.offset[0] = c.start[0] = 0;
    return c;
}

static uint8_t *put_group(uint8_t *p, uint64_t degree, int dense, uint64_t *seed) {
    uint64_t high = 0;
    p = put_varint(p, degree);
    *p++ = dense ? DENSE : SPLIT;
    for (uint64_t k = 0; k < degree; k++) {
        *seed = turn(*seed);
        if (dense) {
            high += ((uint64_t)1 << 49) + (*seed >> 11);
            put_be64(p, high);
            put_be64(p + HALF, *seed);
            p += ID;
        } else {
            p = put_varint(p, 1 + (*seed >> 33) % 200);
            put64(p, *seed);
            p += HALF;
        }
    }
    return p;
}

void add(content *c, uint64_t high, uint64_t low, uint64_t degree, int dense, uint64_t *seed) {
    put_be64(c->key + ID * c->keys, high);
    put_be64(c->key + ID * c->keys + HALF, low);
    uint8_t *end = put_group(c->partners + c->offset[c->keys], degree, dense, seed);
    c->offset[++c->keys] = (uint32_t)(end - c->partners);
    c->edges += degree;
    c->start[c->keys] = (uint32_t)c->edges;
    c->dense |= dense;
}

static size_t width_of(const content *c) { return c->wide || c->offset[c->keys] >= 1 << 24 ? 4 : 3; }

static uint64_t fences_of(const content *c) {
    return c->fenced || c->keys > MOST_WITHOUT_FENCES ? (c->keys + STRIDE - 1) / STRIDE : 0;
}

size_t size_of(const content *c) {
    uint64_t fences = fences_of(c);
    uint64_t sections = 4 + (uint64_t)c->dead + (fences > 0) + (c->stream > 0) + (uint64_t)c->starts;
    return HEADER + ID * c->keys + (c->keys + 1) * width_of(c) + c->offset[c->keys] + 8 * c->edges +
           (c->dead ? tombstone_bytes(c->edges) : 0) + (fences > 0 ? FENCES_HEAD + FENCE * fences : 0) + c->stream +
           (c->starts ? index_bytes(c->keys) : 0) + 2 + ENTRY * sections + FOOTER_COUNTS + TRAILER;
}

enum { MOST_ROWS = 8 };

/* A file under way: its bytes and the table of the sections that stand in it. */
typedef struct {
    bytes file;
    uint8_t table[MOST_ROWS * ENTRY];
    size_t rows;
} draft;

/* Takes the section of the bytes that have been put from the end of the draft to p. */
static void section(draft *d, uint64_t kind, const uint8_t *p) {
    size_t length = (size_t)(p - d->file.bytes) - d->file.size;
    uint8_t *row = d->table + d->rows;
    memset(row, 0, ENTRY);
    put(row, 2, kind);
    put64(row + 4, d->file.size);
    put64(row + 12, length);
    d->rows += ENTRY;
    d->file.size += length;
}

/* Gives the place behind them. */
static uint8_t *put_fences(uint8_t *p, const content *c) {
    put32(p, STRIDE);
    put32(p + 4, fences_of(c));
    p += FENCES_HEAD;
    for (uint64_t i = 0; i < c->keys; i += STRIDE, p += FENCE) {
        memcpy(p, c->key + ID * i, ID);
        put64(p + ID, ID * i);
    }
    return p;
}

static uint8_t *put_sections(draft *d, const content *c, uint8_t *p) {
    size_t width = width_of(c), partners = c->offset[c->keys];
    memcpy(p, c->key, ID * c->keys);
    section(d, KEYS, p += ID * c->keys);
    for (uint64_t i = 0; i <= c->keys; i++, p += width)
        put(p, width, c->offset[i]);
    section(d, OFFSETS, p);
    memcpy(p, c->partners, partners);
    section(d, PARTNERS, p += partners);
    for (uint64_t i = 0; i < c->edges; i++, p += 8)
        put64(p, turn(i));
    section(d, LOGS, p);
    if (c->dead) {
        memset(p, 0, tombstone_bytes(c->edges));
        p[(c->edges - 1) / 8] = (uint8_t)(1 << (c->edges - 1) % 8);
        section(d, TOMBSTONES, p += tombstone_bytes(c->edges));
    }
    if (fences_of(c) > 0)
        section(d, FENCES, p = put_fences(p, c));
    if (c->stream > 0) {
        if (partners == 0)
            stop(2, "no groups to fill a stream with");
        for (size_t i = 0; i < c->stream; i += partners)
            memcpy(p + i, c->partners, c->stream - i < partners ? c->stream - i : partners);
        section(d, PROPERTIES, p += c->stream);
    }
    if (c->starts) {
        for (uint64_t i = 0; i <= c->keys; i++, p += START)
            put64(p, c->start[i]);
        section(d, START_INDEX, p);
    }
    return p;
}

static size_t footer_of(bytes f) { return le32(f.bytes + f.size - TRAILER + 8); }

/* Puts the footer's own sum behind it. */
static void seal_footer(bytes f) {
    size_t footer = footer_of(f);
    put64(f.bytes + f.size - TRAILER, XXH3_64bits(f.bytes + f.size - footer, footer - TRAILER));
}

/* Puts the sums into the footer: what stands in the sections and the table is taken as it is. */
static void seal(bytes f) {
    uint8_t *body = f.bytes + f.size - footer_of(f), *p = body + 2;
    for (uint64_t i = 0; i < le16(body); i++, p += ENTRY)
        put64(p + 20, XXH3_64bits(f.bytes + le64(p + 4), le64(p + 12)));
    seal_footer(f);
}

bytes file_of(const content *c) {
    size_t size = size_of(c);
    draft d = {.file = memory(size)};
    uint8_t *p = d.file.bytes;
    memset(p, 0, HEADER);
    memcpy(p, magic, sizeof magic);
    p[8] = 1;
    p[9] = (uint8_t)c->starts;
    p[10] = HEADER;
    p[12] = (uint8_t)(HAS_PROPERTIES * (c->stream > 0) + HAS_DEAD * c->dead + HAS_DENSE * c->dense);
    d.file.size = HEADER;
    p = put_sections(&d, c, p + HEADER);
    put(p, 2, d.rows / ENTRY);
    memcpy(p + 2, d.table, d.rows);
    p += 2 + d.rows;
    put64(p, c->keys);
    put64(p + 8, c->edges);
    p[16] = (uint8_t)(8 * width_of(c));
    p += FOOTER_COUNTS;
    put32(p + 8, 2 + d.rows + FOOTER_COUNTS + TRAILER);
    memcpy(p + 12, magic, sizeof magic);
    if (p + TRAILER != d.file.bytes + size)
        stop(2, "a file of another size");
    d.file.size = size;
    seal(d.file);
    return d.file;
}

bytes mixed_file(int starts) {
    content c = room_for(9, 32 * (9 + 45));
    uint64_t seed = 5;
    c.dead = 1;
    c.starts = starts;
    for (uint64_t degree = 1; degree <= 9; degree++)
        add(&c, c.keys * 0xFFFFFFFFFF, turn(c.keys), degree, degree % 3 == 0, &seed);
    return file_of(&c);
}

void change_byte(bytes f, bytes g, uint64_t i, uint64_t seed) {
    size_t place = i % 16 == 5 ? 12 : (size_t)(seed >> 20) % f.size;
    memcpy(g.bytes, f.bytes, f.size);
    g.bytes[place] = seed >> 63 ? (uint8_t)(seed >> 8) : (uint8_t)(g.bytes[place] ^ 1u << (seed >> 60));
    if (i % 4 != 0 && place < f.size - footer_of(f))
        seal(g);
    else if (i % 4 != 0 && place < f.size - TRAILER)
        seal_footer(g);
}
