/* The numbers of the format, and bytes read and written by it. For little-endian machines. */
#ifndef FORMAT_H
#define FORMAT_H

#include <stddef.h>
#include <stdint.h>
#include <string.h>

enum { HEADER = 64, FOOTER_COUNTS = 17, TRAILER = 20, ENTRY = 28, ID = 16, HALF = 8, FENCES_HEAD = 8, FENCE = 24 };
enum { START = 8, LEAST_WITH_STARTS = 1025 }; /* a start's bytes; the keys from which the writer has a start index */
enum { STRIDE = 256, MOST_KEYS = 1 << 24, MOST_EDGES = 1 << 26, MOST_BYTES = 1 << 30, MOST_WITHOUT_FENCES = 65536 };
enum { KEYS = 1, OFFSETS, PARTNERS, LOGS, TOMBSTONES, FENCES };                         /* kinds of section */
enum { PROPERTIES = 0x100, START_INDEX = 0x200 };                                       /* more of them */
enum { RESERVED_FIRST = 7, RESERVED_LAST = 0xff };                                      /* kinds that are refused */
enum { HAS_PROPERTIES = 1, HAS_DEAD = 2, HAS_DENSE = 4, INVERSE = 8 };                  /* flags */
enum { SPLIT = 0x01, DENSE = 0x10 };                                                    /* tags of a group */
enum { HEADING = 50, EDGE = 41, RECORD_KEY = 1, RECORD_PARTNER = 17, RECORD_LOG = 33 }; /* records of a batch */
enum { LIVE_EDGE = 1, DEAD_EDGE, HEAD };                                                /* kinds of record */

static const uint8_t magic[8] = "TGEDGE";

static inline uint64_t le16(const uint8_t *p) {
    uint16_t x;
    memcpy(&x, p, sizeof x);
    return x;
}

static inline uint64_t le32(const uint8_t *p) {
    uint32_t x;
    memcpy(&x, p, sizeof x);
    return x;
}

static inline uint64_t le64(const uint8_t *p) {
    uint64_t x;
    memcpy(&x, p, sizeof x);
    return x;
}

static inline uint64_t be64(const uint8_t *p) { return __builtin_bswap64(le64(p)); }

/* The offset of `width` bytes at p; no byte beside it is read. */
static inline uint64_t offset_at(const uint8_t *p, size_t width) {
    switch (width) {
    case 3:
        return le16(p) | (uint64_t)p[2] << 16;
    case 4:
        return le32(p);
    case 5:
        return le32(p) | (uint64_t)p[4] << 32;
    default:
        return le32(p) | le16(p + 4) << 32;
    }
}

/* The n low bytes of x, the lowest first. */
static inline void put(uint8_t *p, size_t n, uint64_t x) { memcpy(p, &x, n); }

static inline void put32(uint8_t *p, uint64_t x) { put(p, 4, x); }

static inline void put64(uint8_t *p, uint64_t x) { put(p, 8, x); }

static inline void put_be64(uint8_t *p, uint64_t x) { put64(p, __builtin_bswap64(x)); }

/* Gives the place behind it. */
static inline uint8_t *put_varint(uint8_t *p, uint64_t x) {
    for (; x >= 128; x >>= 7)
        *p++ = (uint8_t)(x | 128);
    *p++ = (uint8_t)x;
    return p;
}

/* The bytes of tombstones for so many edges. */
static inline uint64_t tombstone_bytes(uint64_t edges) { return (edges + 7) / 8; }

/* The bytes of a start index for so many keys. */
static inline uint64_t index_bytes(uint64_t keys) { return START * (keys + 1); }

#endif
