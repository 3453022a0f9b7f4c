/* Edge SST files for C99 and C++: link libedge_sst_c.a ('tools/staticlib edge_sst_c').
 *
 * docs/FORMAT.md says what a file and a batch are, byte by byte, and has a glossary.
 * tests/c/example.c looks up a key, example_check.c checks files, example_write.c
 * writes one, example_sum.c sums sections that come down in chunks.
 *
 * For every call:
 *
 * - Any bytes may be lent, and any numbers as a record. A call answers or refuses,
 *   and always returns.
 * - No pointer is null, also where its length is 0: any other address will do there.
 *   Records and runs of uint64_t are aligned as their type asks.
 * - A call reads and writes only what it is lent. An output overlaps nothing else that
 *   is lent, and nobody writes what is lent while the call runs.
 * - number is 0 where there is no refusal, otherwise the refusal's number. place is
 *   its place; beside is a second place beside it, which only the faults of a group
 *   have. Fields that do not apply are 0.
 * - A refusal, or the absence of a key, leaves every output as it was. Of an answer,
 *   what lies past it stays.
 * - Not enough room is EDGE_SST_ROOM (20), and its place is what is needed: ask with
 *   a length of 0, lend that much and ask again.
 * - The calls keep no state and ask for no memory. They may run at the same time, also
 *   on the same file. The state of a running sum is the caller's, and is written in
 *   place: feeding wants it alone, asking may be done by several at once.
 *
 * The refusals of each call, in the order in which they are asked:
 *
 *   edge_sst_open             1 to 9, 36, 10 to 15, 37
 *   edge_sst_header           those of edge_sst_open
 *   edge_sst_sections, list   those of edge_sst_open, 20
 *   edge_sst_partners         those of edge_sst_open, the group's, 20
 *   edge_sst_lookup           those of edge_sst_open, the group's, 19, 20
 *   edge_sst_partners_with    21, 14, the group's, 20
 *   edge_sst_lookup_with      21, 14, the group's, 19, 20
 *   edge_sst_check            those of edge_sst_open, 22, each group's, 23
 *   edge_sst_read_out         those of edge_sst_check, 20
 *   edge_sst_summary          those of edge_sst_check
 *   edge_sst_needed           24 and 25 record by record, 26
 *   edge_sst_write            24 and 25 record by record, 26, 20
 *   edge_sst_sum              none
 *   edge_sst_running_new      none
 *   edge_sst_running_feed     27
 *   edge_sst_running_asked    none
 *
 * The group's are 16 and 28 to 35: its first fault in reading order.
 *
 * The place of each, counted from 0:
 *
 *   10, 11, 22, 36            the entry of the section table, skipped kinds counted
 *   13                        the key that is not above the one before
 *   14                        the offset, of key count plus one; from the lookups by a
 *                             record the group, whose offsets fall or leave the partners
 *   16, 28 to 35              the byte in the group, counted from the group's first;
 *                             beside: the group, which is the index of its key.
 *                             16: the tag. 28, 30, 33 to 35: the varint. 29: the later
 *                             of the two partners. 31: the tag, or the partner that is
 *                             cut. 32: the spare bytes. Of each its first byte, or the
 *                             group's length where none of it is left; a split partner
 *                             begins with its upper half
 *   19                        the group asked for, not the earlier one at fault. By a
 *                             record with a start index: its two entries there do not
 *                             differ by its degree, or the later one is above the edge
 *                             count. Without one: an earlier degree is unreadable or 0,
 *                             or the edges pass the edge count
 *   20                        what is needed. Lookups: the degree, whichever output is
 *                             short. Section list: rows. Read-out and writer: bytes
 *   24, 25                    the first byte of the record in the batch
 *   37                        the entry of the start index, of key count plus one
 *   all others                0 */
#ifndef EDGE_SST_H
#define EDGE_SST_H

#include <stddef.h>
#include <stdint.h>

#ifdef __cplusplus
extern "C" {
#endif

/* The version of this header and of the archive that it is for: 10000 for the major
 * number, 100 for the minor one, 1 for the patch. A new patch changes nothing in this
 * header. Until 1.0 a new minor number may add calls, refusals and fields, and may tell
 * a fault by a finer number in the place of a coarse one. Numbers keep their meaning,
 * new ones follow after the last; fields are only added at the end of a struct: the
 * record may get another range, a row another number. As structs are given by value
 * and rows lie back to back, an archive goes with the header of its own version and no
 * other. */
#define EDGE_SST_VERSION_MAJOR 0
#define EDGE_SST_VERSION_MINOR 5
#define EDGE_SST_VERSION_PATCH 0
#define EDGE_SST_VERSION \
    (10000 * EDGE_SST_VERSION_MAJOR + 100 * EDGE_SST_VERSION_MINOR + EDGE_SST_VERSION_PATCH)
#define EDGE_SST_VERSION_TEXT "0.5.0"

/* Bytes of a key and of a partner. They compare as 16 bytes from the first. */
#define EDGE_SST_KEY_BYTES 16

/* A batch is a heading and then edges, which strictly increase by key, then partner.
 *
 *   heading   0 kind, 3      1 direction, 0 forward or 1 inverse     2 edge type
 *             18 source label               34 destination label     16 bytes each
 *   edge      0 kind, 1 live or 2 dead      1 key     17 partner     33 log number
 *
 * A log number is 8 bytes, lowest first. Edge k begins at EDGE_SST_HEADING_BYTES +
 * EDGE_SST_EDGE_BYTES * k. */
#define EDGE_SST_HEADING_BYTES 50
#define EDGE_SST_EDGE_BYTES 41
#define EDGE_SST_BATCH_LIVE 1
#define EDGE_SST_BATCH_DEAD 2
#define EDGE_SST_BATCH_HEADING 3

/* Bounds; exactly the bound is lawful. A file has at least EDGE_SST_LEAST_BYTES. A running
 * sum has at most EDGE_SST_MOST_BYTES, as a file has. */
#define EDGE_SST_LEAST_BYTES 84
#define EDGE_SST_MOST_BYTES 1073741824
#define EDGE_SST_MOST_KEYS 16777216
#define EDGE_SST_MOST_EDGES 67108864
#define EDGE_SST_MOST_SECTIONS 64
#define EDGE_SST_MOST_NAME 63
#define EDGE_SST_MOST_COMPARED 25

/* Flag bits of a header. Every other bit is 0. */
#define EDGE_SST_FLAG_PROPERTIES 1
#define EDGE_SST_FLAG_TOMBSTONES 2
#define EDGE_SST_FLAG_DENSE 4
#define EDGE_SST_FLAG_INVERSE 8

/* Kinds of sections. A file with a kind of the reserved range is refused; every other
 * kind is skipped. */
#define EDGE_SST_KIND_KEYS 1
#define EDGE_SST_KIND_OFFSETS 2
#define EDGE_SST_KIND_PARTNERS 3
#define EDGE_SST_KIND_LOG_NUMBERS 4
#define EDGE_SST_KIND_TOMBSTONES 5
#define EDGE_SST_KIND_FENCES 6
#define EDGE_SST_KIND_PROPERTIES 0x0100
#define EDGE_SST_KIND_START_INDEX 0x0200
#define EDGE_SST_KIND_RESERVED_FIRST 0x0007
#define EDGE_SST_KIND_RESERVED_LAST 0x00FF

/* The refusals, as the calls tell them in number; 0 is none. Their texts:
 * edge_sst_text. */
enum {
    /* numbers: from refusals.txt */
    EDGE_SST_SIZE = 1,
    EDGE_SST_MAGIC,
    EDGE_SST_MAJOR,
    EDGE_SST_HEADER_SIZE,
    EDGE_SST_FLAGS,
    EDGE_SST_TAIL_MAGIC,
    EDGE_SST_FOOTER_LENGTH,
    EDGE_SST_FOOTER_SUM,
    EDGE_SST_TABLE,
    EDGE_SST_CODEC,
    EDGE_SST_RANGE,
    EDGE_SST_COUNTS,
    EDGE_SST_KEY,
    EDGE_SST_OFFSET,
    EDGE_SST_FENCES,
    EDGE_SST_TAG,
    EDGE_SST_VARINT, /* no longer given: see 33 to 35 */
    EDGE_SST_GROUP, /* no longer given: see 28 to 32 */
    EDGE_SST_DEGREES,
    EDGE_SST_ROOM,
    EDGE_SST_RECORD,
    EDGE_SST_SUM,
    EDGE_SST_DATA,
    EDGE_SST_BATCH,
    EDGE_SST_UNORDERED,
    EDGE_SST_BOUNDS,
    EDGE_SST_CHUNK,
    EDGE_SST_DEGREE_ZERO,
    EDGE_SST_PARTNER_ORDER,
    EDGE_SST_UPPER_HALF,
    EDGE_SST_GROUP_CUT,
    EDGE_SST_SPARE_BYTES,
    EDGE_SST_VARINT_CUT,
    EDGE_SST_VARINT_LONG,
    EDGE_SST_VARINT_LARGE,
    EDGE_SST_RESERVED,
    EDGE_SST_START,
    /* numbers: to here */
};

/* What a number says, for people. */
static inline const char *edge_sst_text(uint64_t number) {
    static const char *const texts[] = {
        /* texts: from refusals.txt */
        "no refusal",
        "file under 84 or over 2^30 bytes",
        "magic",
        "major version not 1",
        "header size not 64",
        "a flag bit 4 to 31 is set",
        "tail magic",
        "footer length",
        "footer checksum",
        "section table",
        "a section of kind 1 to 6 or 0x0200 is not raw",
        "section range",
        "counts, lengths or presence of sections",
        "key not above the one before",
        "offset",
        "fence section",
        "unknown tag",
        "no longer given: see 33 to 35",
        "no longer given: see 28 to 32",
        "an earlier degree, a start index unlike the degree, or edges past the edge count",
        "output too short",
        "opened record that cannot be of this file",
        "a section's checksum",
        "degree sum, flag bit 1 or 2, unused tombstone bits, or start index",
        "batch record unknown, cut or misplaced",
        "batch order",
        "more keys, edges or file bytes than the bounds",
        "chunk past 2^30 bytes in all",
        "degree 0",
        "partner order",
        "upper half too large",
        "group cut short",
        "bytes left over",
        "varint cut",
        "varint not shortest",
        "varint too large",
        "a section of a reserved kind",
        "start index entry",
        /* texts: to here */
    };
    return number < sizeof texts / sizeof texts[0] ? texts[number] : "unknown refusal";
}

/* Whether a number has a second place: its place is then a byte in a group, and beside is
 * the group. */
static inline int edge_sst_has_beside(uint64_t number) {
    switch (number) {
        /* beside: from refusals.txt */
    case EDGE_SST_TAG:
    case EDGE_SST_DEGREE_ZERO:
    case EDGE_SST_PARTNER_ORDER:
    case EDGE_SST_UPPER_HALF:
    case EDGE_SST_GROUP_CUT:
    case EDGE_SST_SPARE_BYTES:
    case EDGE_SST_VARINT_CUT:
    case EDGE_SST_VARINT_LONG:
    case EDGE_SST_VARINT_LARGE:
        /* beside: to here */
        return 1;
    default:
        return 0;
    }
}

/* The opened record: what opening a file gives. Where it is refused, all but the
 * refusal is 0. The start of a range counts from the file's first byte. marked is 1
 * where the file has tombstones, 0 where it has none; indexed is 1 where it has a
 * start index, otherwise 0 and the two fields before it too. */
typedef struct {
    uint64_t number, place, beside;
    uint64_t keystart, keylen;
    uint64_t offsetstart, offsetlen;
    uint64_t partnerstart, partnerlen;
    uint64_t logstart, loglen;
    uint64_t deadstart, deadlen, marked;
    uint64_t keycount, edgecount, bits;
    uint64_t indexstart, indexlen, indexed;
} EdgeSstOpened;

/* Opens the n bytes at p: the frame, the keys, the offsets, the fences and the order of
 * the start index are checked. */
EdgeSstOpened edge_sst_open(const uint8_t *p, size_t n);

/* The header of a file. direction is 1 for an inverse file, 0 for a forward one, as
 * EDGE_SST_FLAG_INVERSE in flags says too; edgetype, source and destination are the ids
 * of the edge type, the source label and the destination label. Where it is refused, all
 * but the refusal is 0. No checksum covers a header: what it says is what stands there. */
typedef struct {
    uint64_t number, place, beside;
    uint64_t minor, direction, flags;
    uint8_t edgetype[16], source[16], destination[16];
} EdgeSstHeader;

/* The header of the n bytes at p, which are opened first. */
EdgeSstHeader edge_sst_header(const uint8_t *p, size_t n);

/* What a lookup gives. found is 1 if the key is there, with its count of partners and
 * its index among the keys; compared is the count of keys that were compared, of an
 * absent key too. */
typedef struct {
    uint64_t number, place, beside;
    uint64_t found, degree, index, compared;
} EdgeSstLooked;

/* Writes the partners of the key, EDGE_SST_KEY_BYTES each, over the start of the m
 * bytes at out. o is what edge_sst_open gave for these n bytes, or any numbers: its
 * refusal is not looked at, marked and indexed other than 0 are 1, and numbers that
 * cannot be of these bytes are refusal 21; those of tombstones and of a start index
 * that the record says it has not are not looked at. A record of other bytes is
 * answered with what these bytes say at its ranges: open again when the bytes change. */
EdgeSstLooked edge_sst_partners_with(const uint8_t *p, size_t n, const EdgeSstOpened *o,
                                     const uint8_t key[16], uint8_t *out, size_t m);

/* The same of the n bytes at p, which are opened first. */
EdgeSstLooked edge_sst_partners(const uint8_t *p, size_t n, const uint8_t key[16], uint8_t *out,
                                size_t m);

/* As edge_sst_partners_with, with the log numbers over the start of the l numbers at
 * logs and the dead marks, 0 or 1, over the start of the k bytes at marks. Where they
 * begin, the start index of the record says; without one the degrees of all earlier
 * groups are read and summed, which takes longer the later the key. */
EdgeSstLooked edge_sst_lookup_with(const uint8_t *p, size_t n, const EdgeSstOpened *o,
                                   const uint8_t key[16], uint8_t *out, size_t m, uint64_t *logs,
                                   size_t l, uint8_t *marks, size_t k);

/* The same of the n bytes at p, which are opened first. */
EdgeSstLooked edge_sst_lookup(const uint8_t *p, size_t n, const uint8_t key[16], uint8_t *out,
                              size_t m, uint64_t *logs, size_t l, uint8_t *marks, size_t k);

/* What a check gives: zeros where the file passes. And what a chunk gives: zeros where it
 * is taken. */
typedef struct {
    uint64_t number, place, beside;
} EdgeSstTold;

/* Checks the n bytes at p in full: opening, the checksum of every section, every
 * group, and what they say together. */
EdgeSstTold edge_sst_check(const uint8_t *p, size_t n);

/* What a read-out and the writer give: how many bytes were written, or are needed. */
typedef struct {
    uint64_t number, place, beside, bytes;
} EdgeSstDone;

/* Writes the batch of the n bytes at p over the start of the m bytes at out, once the
 * file has passed the full check. */
EdgeSstDone edge_sst_read_out(const uint8_t *p, size_t n, uint8_t *out, size_t m);

/* Buckets of a summary. */
#define EDGE_SST_BUCKETS 64

/* The summary of a file's edges: keys, edges, dead edges, and the largest degree, 0 where
 * there is no edge. A degree counts a key's edges, dead ones too. extremes is 1 where there
 * are edges: then the four fields after it are the smallest and largest key and log number,
 * of dead edges too; otherwise there is no smallest and largest, and all five are 0. Bucket i
 * counts the keys of degree 2^i up to, but not including, 2^(i+1); as a file has at most 2^26
 * edges, buckets 27 to 63 are 0. Where it is refused, all but the refusal is 0. */
typedef struct {
    uint64_t number, place, beside;
    uint64_t keycount, edgecount, tombstones, largestdegree;
    uint64_t extremes;
    uint8_t smallestkey[16], largestkey[16];
    uint64_t smallestlog, largestlog;
    uint64_t buckets[EDGE_SST_BUCKETS];
} EdgeSstSummary;

/* The summary of the n bytes at p, once they have passed the full check. */
EdgeSstSummary edge_sst_summary(const uint8_t *p, size_t n);

/* How many bytes the file of the batch of n bytes at p takes. */
EdgeSstDone edge_sst_needed(const uint8_t *p, size_t n);

/* Writes the file of the batch of n bytes at p over the start of the m bytes at out. */
EdgeSstDone edge_sst_write(const uint8_t *p, size_t n, uint8_t *out, size_t m);

/* The XXH3-64 of the n bytes at p: seed 0, default secret. */
uint64_t edge_sst_sum(const uint8_t *p, size_t n);

/* A running sum: what is kept of the bytes so far. total counts them, lanes are XXH3's
 * accumulators, and byte i of all, counted from 0, lies at i % 256 of buffer until a
 * later one takes its place. It is plain data, and a copy goes on by itself. Any values
 * may be lent. */
typedef struct {
    uint64_t total;
    uint64_t lanes[8];
    uint8_t buffer[256];
} EdgeSstRunning;

/* The state before any byte. */
EdgeSstRunning edge_sst_running_new(void);

/* Takes the n bytes at p as the next chunk; the state's parts are lent, and overlap
 * neither each other nor the chunk. Zeros: the chunk is taken, and the state is that of
 * all bytes, wherever they were cut. EDGE_SST_CHUNK (27): total and n together pass
 * EDGE_SST_MOST_BYTES, and nothing changes; a smaller chunk may follow. */
EdgeSstTold edge_sst_running_feed(uint64_t *total, uint64_t *lanes, uint8_t *buffer,
                                  const uint8_t *p, size_t n);

/* The sum of all bytes so far: of a state that came from edge_sst_running_new and chunks,
 * what edge_sst_sum says of the whole. Asking changes nothing, and chunks may follow. */
uint64_t edge_sst_running_asked(uint64_t total, const uint64_t *lanes, const uint8_t *buffer);

/* The same two over a whole state. */
static inline EdgeSstTold edge_sst_running_update(EdgeSstRunning *state, const uint8_t *p,
                                                  size_t n) {
    return edge_sst_running_feed(&state->total, state->lanes, state->buffer, p, n);
}

static inline uint64_t edge_sst_running_sum(const EdgeSstRunning *state) {
    return edge_sst_running_asked(state->total, state->lanes, state->buffer);
}

/* An entry of the section table. nameat is the place of its name, counted from the
 * file's first byte; an empty name has the place where it would begin. */
typedef struct {
    uint64_t kind, codec, nameat, namelen, start, len, sum;
} EdgeSstRow;

/* Numbers of a row. */
#define EDGE_SST_ROW_NUMBERS 7

/* What the section list gives: how many rows were written. */
typedef struct {
    uint64_t number, place, beside, rows;
} EdgeSstListed;

/* Lists the sections of the n bytes at p, in table order, skipped kinds too:
 * EDGE_SST_ROW_NUMBERS numbers for each row, in the order of EdgeSstRow, over the start
 * of the m numbers at numbers. EDGE_SST_MOST_SECTIONS rows are always enough. */
EdgeSstListed edge_sst_sections(const uint8_t *p, size_t n, uint64_t *numbers, size_t m);

/* The same over a table of m rows. */
static inline EdgeSstListed edge_sst_list(const uint8_t *p, size_t n, EdgeSstRow *rows, size_t m) {
    return edge_sst_sections(p, n, (uint64_t *)rows, EDGE_SST_ROW_NUMBERS * m);
}

#ifdef __cplusplus
}
#endif

#endif
