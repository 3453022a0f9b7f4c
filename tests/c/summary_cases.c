/* Summaries by hand, of damaged files, and the struct that they come in. */
#include <stdlib.h>
#include <string.h>

#include "test.h"

enum { WORD = 8, TRAILER = 20, DAMAGED = 1000, LIVE = EDGE_SST_BATCH_LIVE, DEAD = EDGE_SST_BATCH_DEAD };

static void hold_place(const char *field, size_t place, size_t expected) {
    if (place != expected)
        differ("%s at %lu of the summary, expected %lu", field, (unsigned long)place, (unsigned long)expected);
}

static void hold_layout(void) {
    hold_place("number", offsetof(EdgeSstSummary, number), 0);
    hold_place("place", offsetof(EdgeSstSummary, place), 8);
    hold_place("beside", offsetof(EdgeSstSummary, beside), 16);
    hold_place("keycount", offsetof(EdgeSstSummary, keycount), 24);
    hold_place("edgecount", offsetof(EdgeSstSummary, edgecount), 32);
    hold_place("tombstones", offsetof(EdgeSstSummary, tombstones), 40);
    hold_place("largestdegree", offsetof(EdgeSstSummary, largestdegree), 48);
    hold_place("extremes", offsetof(EdgeSstSummary, extremes), 56);
    hold_place("smallestkey", offsetof(EdgeSstSummary, smallestkey), 64);
    hold_place("largestkey", offsetof(EdgeSstSummary, largestkey), 80);
    hold_place("smallestlog", offsetof(EdgeSstSummary, smallestlog), 96);
    hold_place("largestlog", offsetof(EdgeSstSummary, largestlog), 104);
    hold_place("buckets", offsetof(EdgeSstSummary, buckets), 112);
    hold_place("the end", sizeof(EdgeSstSummary), 624);
}

/* A batch that is being made: its end is where the next record begins. */
typedef struct {
    uint8_t *bytes;
    size_t end;
} Making;

static Making heading(size_t edges) {
    Making m;
    m.bytes = memory(HEADING + EDGE * edges);
    memset(m.bytes, 0, HEADING);
    m.bytes[0] = EDGE_SST_BATCH_HEADING;
    m.end = HEADING;
    return m;
}

static void put_word(uint8_t *p, uint64_t x) {
    size_t i;
    for (i = 0; i < WORD; i++)
        p[i] = (uint8_t)(x >> 8 * i);
}

/* The key has this byte sixteen times. The partner's number comes highest byte first. */
static void put_edge(Making *m, uint8_t kind, uint8_t key, uint32_t partner, uint64_t log) {
    uint8_t *p = m->bytes + m->end;
    size_t i;
    memset(p, 0, EDGE);
    p[0] = kind;
    memset(p + 1, key, ID);
    for (i = 0; i < 4; i++)
        p[17 + ID - 1 - i] = (uint8_t)(partner >> 8 * i);
    put_word(p + 33, log);
    m->end += EDGE;
}

/* Edges of one key, whose log numbers are 1, 2 and so on. */
static void put_edges(Making *m, uint8_t kind, uint8_t key, uint32_t degree) {
    uint32_t i;
    for (i = 1; i <= degree; i++)
        put_edge(m, kind, key, i, i);
}

/* The summary of the batch's file. */
static EdgeSstSummary summary_of_made(const char *name, Making m) {
    size_t n = (size_t)edge_sst_needed(m.bytes, m.end).bytes;
    uint8_t *out = memory(n);
    Bytes file;
    EdgeSstSummary s;
    file.p = out;
    file.n = (size_t)edge_sst_write(m.bytes, m.end, out, n).bytes;
    s = ask_summary(name, file);
    test_summary(name, file);
    free(out);
    free(m.bytes);
    return s;
}

static EdgeSstSummary nothing(void) {
    EdgeSstSummary s;
    memset(&s, 0, sizeof s);
    return s;
}

static void without_edges(void) {
    EdgeSstSummary got = summary_of_made("no edges", heading(0)), expected = nothing();
    hold_summary("no edges", &got, &expected);
}

static void some_edges(void) {
    EdgeSstSummary got, expected = nothing();
    Making m = heading(8);
    put_edge(&m, LIVE, 0x01, 5, 7);
    put_edge(&m, DEAD, 0x02, 4, 90);
    put_edge(&m, DEAD, 0x02, 5, 3);
    put_edge(&m, LIVE, 0x9A, 1, 12);
    put_edge(&m, LIVE, 0x9A, 2, UINT64_MAX);
    put_edge(&m, LIVE, 0x9A, 3, 13);
    put_edge(&m, LIVE, 0x9A, 4, 14);
    put_edge(&m, DEAD, 0x9A, 5, 15);
    got = summary_of_made("some edges", m);
    expected.keycount = 3, expected.edgecount = 8, expected.tombstones = 3, expected.largestdegree = 5;
    expected.extremes = 1, expected.smallestlog = 3, expected.largestlog = UINT64_MAX;
    memset(expected.smallestkey, 0x01, ID);
    memset(expected.largestkey, 0x9A, ID);
    expected.buckets[0] = 1, expected.buckets[1] = 1, expected.buckets[2] = 1;
    hold_summary("some edges", &got, &expected);
}

static void degree_5000(void) {
    EdgeSstSummary got, expected = nothing();
    Making m = heading(5000);
    put_edges(&m, DEAD, 0xFF, 5000);
    got = summary_of_made("degree 5000", m);
    expected.keycount = 1, expected.edgecount = 5000, expected.tombstones = 5000, expected.largestdegree = 5000;
    expected.extremes = 1, expected.smallestlog = 1, expected.largestlog = 5000;
    memset(expected.smallestkey, 0xFF, ID);
    memset(expected.largestkey, 0xFF, ID);
    expected.buckets[12] = 1;
    hold_summary("degree 5000", &got, &expected);
}

/* 2,047 to 65,536: both sides of four powers of two. */
static void large_degrees(void) {
    static const uint32_t degrees[8] = {2047, 2048, 8191, 8192, 16383, 16384, 65536, 65535};
    EdgeSstSummary got, expected = nothing();
    Making m = heading(184316);
    uint8_t i;
    for (i = 0; i < 8; i++)
        put_edges(&m, i == 4 ? DEAD : LIVE, i, degrees[i]);
    got = summary_of_made("large degrees", m);
    expected.keycount = 8, expected.edgecount = 184316, expected.tombstones = 16383, expected.largestdegree = 65536;
    expected.extremes = 1, expected.smallestlog = 1, expected.largestlog = 65536;
    memset(expected.largestkey, 7, ID);
    expected.buckets[10] = 1, expected.buckets[11] = 1, expected.buckets[12] = 1, expected.buckets[13] = 2;
    expected.buckets[14] = 1, expected.buckets[15] = 1, expected.buckets[16] = 1;
    hold_summary("large degrees", &got, &expected);
}

/* The larger sample. */
static void board(Bytes file) {
    static const uint8_t smallest[ID] = {0x01, 0x8F, 0x6E, 0x2A, 0x7C, 0x10, 0x70, 0x00, 0, 0, 0, 0, 0, 0, 0, 1};
    static const uint8_t largest[ID] = {0x01, 0x8F, 0x6E, 0x2A, 0x7C, 0x10, 0x70, 0x03, 0, 0x80};
    EdgeSstSummary got = ask_summary("board", file), expected = nothing();
    expected.keycount = 12, expected.edgecount = 40, expected.tombstones = 6, expected.largestdegree = 8;
    expected.extremes = 1, expected.smallestlog = 1001, expected.largestlog = 1040;
    memcpy(expected.smallestkey, smallest, ID);
    memcpy(expected.largestkey, largest, ID);
    expected.buckets[0] = 3, expected.buckets[1] = 4, expected.buckets[2] = 4, expected.buckets[3] = 1;
    hold_summary("board", &got, &expected);
}

/* The same with its last log number's lowest byte changed: entry 4 has another sum. */
static void bad_board(Bytes file) {
    EdgeSstOpened o = edge_sst_open(file.p, file.n);
    uint8_t *changed = memory(file.n);
    Bytes other = {changed, file.n};
    EdgeSstSummary got, expected = nothing();
    memcpy(changed, file.p, file.n);
    changed[o.logstart + o.loglen - WORD] ^= 1;
    got = ask_summary("bad board", other);
    expected.number = EDGE_SST_SUM, expected.place = 4;
    hold_summary("bad board", &got, &expected);
    free(changed);
}

/* Bytes that are no file: too few, and without the magic. */
static void no_file(void) {
    static const uint8_t zeros[84] = {0};
    Bytes bytes = {zeros, 83};
    EdgeSstSummary got = ask_summary("83 bytes", bytes), expected = nothing();
    expected.number = EDGE_SST_SIZE;
    hold_summary("83 bytes", &got, &expected);
    bytes.n = 84;
    got = ask_summary("84 zeros", bytes);
    expected.number = EDGE_SST_MAGIC;
    hold_summary("84 zeros", &got, &expected);
}

/* Some bits of the file, each changed alone: opening tells it, or a section's sum, or
 * it lies where nobody looks. */
static void flip(const char *name, Bytes file, uint8_t *changed, size_t step) {
    Bytes other = {changed, file.n};
    size_t bit;
    for (bit = 0; bit < 8 * file.n; bit += step) {
        changed[bit / 8] ^= (uint8_t)(1 << bit % 8);
        test_summary(name, other);
        changed[bit / 8] = file.p[bit / 8];
    }
}

/* Sets the sum of a row, and then that of the footer's body, right. */
static void mend(uint8_t *file, size_t n, const EdgeSstRow *row) {
    uint8_t *trailer = file + n - TRAILER;
    size_t footer = trailer[8] | (size_t)trailer[9] << 8;
    put_word(file + row->nameat - WORD, edge_sst_sum(file + row->start, (size_t)row->len));
    put_word(trailer, edge_sst_sum(file + n - footer, footer - TRAILER));
}

/* Some bits of a section, each changed alone, under mended sums. */
static void flip_mended(const char *name, Bytes file, uint8_t *changed, size_t step, const EdgeSstRow *row) {
    Bytes other = {changed, file.n};
    uint64_t bit;
    for (bit = 0; bit < 8 * row->len; bit += step) {
        changed[row->start + bit / 8] ^= (uint8_t)(1 << bit % 8);
        mend(changed, file.n, row);
        test_summary(name, other);
        memcpy(changed, file.p, file.n);
    }
}

/* Each step-th bit of the file. */
static void damage(const char *name, Bytes file, size_t step) {
    EdgeSstRow rows[EDGE_SST_MOST_SECTIONS];
    uint64_t count = edge_sst_list(file.p, file.n, rows, EDGE_SST_MOST_SECTIONS).rows, r;
    uint8_t *changed = memory(file.n);
    memcpy(changed, file.p, file.n);
    flip(name, file, changed, step);
    for (r = 0; r < count; r++)
        flip_mended(name, file, changed, step, &rows[r]);
    free(changed);
}

/* The file, cut after each byte. */
static void cut(const char *name, Bytes file) {
    Bytes part = file;
    for (part.n = 0; part.n < file.n; part.n++)
        test_summary(name, part);
}

/* A bit or two of each byte. */
void test_damaged(const char *name, Bytes file) {
    if (file.n <= DAMAGED)
        damage(name, file, 7);
}

void test_summaries(const char *dir) {
    Bytes file = read_all(dir, "../samples/board.edges");
    hold_layout();
    without_edges();
    some_edges();
    degree_5000();
    large_degrees();
    no_file();
    board(file);
    bad_board(file);
    damage("board", file, 1);
    cut("board", file);
    give_back(file);
}
