/* What is wrong with a group, by the names of the header: groups made by hand, with
 * the byte counted by hand, looked up by a record. */
#include <inttypes.h>
#include <string.h>

#include "test.h"

/* Three keys of 16 bytes, four offsets of three bytes, a log number, the groups. The
 * first and the last group have no bytes: the fault is told in group 1. */
enum { KEYS = 3, BAD = 1, OFFSETS = 48, LOGS = 60, GROUPS = 68, LONGEST = 40 };

#define LOWER "\1\0\0\0\0\0\0\0"
#define PARTNER "\0\0\0\0\0\0\0\5" LOWER
#define MOST "\377\377\377\377\377\377\377\377\377\1"
#define NINE "\200\200\200\200\200\200\200\200\200"

typedef struct {
    uint64_t number, byte;
    size_t n;
    const char *bytes;
} Group;

#define GROUP(number, byte, bytes) {number, byte, sizeof(bytes) - 1, bytes}

static const Group groups[] = {
    GROUP(EDGE_SST_TAG, 1, "\1\2"),
    GROUP(EDGE_SST_TAG, 10, MOST "\0"),
    GROUP(EDGE_SST_DEGREE_ZERO, 0, "\0\2"),
    GROUP(EDGE_SST_PARTNER_ORDER, 11, "\2\1\5" LOWER "\0" LOWER),
    GROUP(EDGE_SST_PARTNER_ORDER, 18, "\3\20" PARTNER PARTNER),
    GROUP(EDGE_SST_UPPER_HALF, 11, "\2\1\1" LOWER MOST),
    GROUP(EDGE_SST_GROUP_CUT, 1, "\1"),
    GROUP(EDGE_SST_GROUP_CUT, 2, "\1\1\5\1\0\0"),
    GROUP(EDGE_SST_GROUP_CUT, 18, "\2\20" PARTNER),
    GROUP(EDGE_SST_SPARE_BYTES, 11, "\1\1\5" LOWER "\0"),
    GROUP(EDGE_SST_SPARE_BYTES, 18, "\1\20" PARTNER "\0"),
    GROUP(EDGE_SST_VARINT_CUT, 0, ""),
    GROUP(EDGE_SST_VARINT_CUT, 0, NINE),
    GROUP(EDGE_SST_VARINT_CUT, 11, "\2\1\5" LOWER),
    GROUP(EDGE_SST_VARINT_LONG, 0, "\200\0"),
    GROUP(EDGE_SST_VARINT_LONG, 2, "\1\1" NINE "\0" LOWER),
    GROUP(EDGE_SST_VARINT_LARGE, 0, NINE "\2"),
    GROUP(EDGE_SST_VARINT_LARGE, 2, "\1\1" NINE "\200" LOWER),
};

/* The bytes around a group, and their record. */
static EdgeSstOpened around(const Group *g, uint8_t bytes[GROUPS + LONGEST]) {
    EdgeSstOpened o;
    size_t i;
    memset(bytes, 0, GROUPS);
    for (i = 0; i < KEYS; i++)
        bytes[ID * i] = (uint8_t)i;
    bytes[OFFSETS + 6] = bytes[OFFSETS + 9] = (uint8_t)g->n;
    memcpy(bytes + GROUPS, g->bytes, g->n);
    memset(&o, 0, sizeof o);
    o.keylen = ID * KEYS;
    o.offsetstart = OFFSETS, o.offsetlen = LOGS - OFFSETS;
    o.partnerstart = GROUPS, o.partnerlen = g->n;
    o.logstart = LOGS, o.loglen = GROUPS - LOGS;
    o.keycount = KEYS, o.edgecount = 1, o.bits = 24;
    return o;
}

static void hold_group(const char *call, const Group *g, EdgeSstLooked got) {
    calls++;
    if (got.number != g->number || got.place != g->byte || got.beside != BAD || got.found != 0)
        differ("%s: a group of %lu bytes: %" PRIu64 " at %" PRIu64 " beside %" PRIu64 ", expected %" PRIu64
               " at %" PRIu64,
               call, (unsigned long)g->n, got.number, got.place, got.beside, g->number, g->byte);
}

/* 16 and 28 to 35 have a second place, and no other number. */
static void hold_beside(void) {
    uint64_t number;
    for (number = 0; number < 64; number++)
        if (edge_sst_has_beside(number) != (number == 16 || (number >= 28 && number <= 35)))
            differ("a second place of %" PRIu64, number);
}

void test_groups(const char *dir) {
    static const uint8_t key[ID] = {BAD};
    size_t i;
    (void)dir;
    hold_beside();
    for (i = 0; i < sizeof groups / sizeof groups[0]; i++) {
        uint8_t bytes[GROUPS + LONGEST], out[1], marks[1];
        uint64_t logs[1];
        const Group *g = &groups[i];
        EdgeSstOpened o = around(g, bytes);
        size_t n = GROUPS + g->n;
        hold_group("partners", g, edge_sst_partners_with(bytes, n, &o, key, out, 0));
        hold_group("lookup", g, edge_sst_lookup_with(bytes, n, &o, key, out, 0, logs, 0, marks, 0));
    }
}
