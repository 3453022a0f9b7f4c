/* Records with a number changed: refusal 21 exactly where the record cannot be of
 * the file. */
#include <inttypes.h>
#include <stddef.h>
#include <string.h>

#include "test.h"

/* The record's numbers, those that are looked at, and those that say what is there. */
enum {
    NUMBERS = sizeof(EdgeSstOpened) / sizeof(uint64_t),
    FIRST = offsetof(EdgeSstOpened, keystart) / sizeof(uint64_t),
    MARKED = offsetof(EdgeSstOpened, marked) / sizeof(uint64_t),
    INDEXED = offsetof(EdgeSstOpened, indexed) / sizeof(uint64_t)
};

static int within(uint64_t start, uint64_t len, uint64_t size) { return start <= size && len <= size - start; }

/* Tombstones and the start index are asked only where the record says that they are there. */
static int possible_extras(const EdgeSstOpened *o, uint64_t size) {
    int dead = within(o->deadstart, o->deadlen, size) && o->deadlen == (o->edgecount + 7) / 8;
    int index = within(o->indexstart, o->indexlen, size) && o->indexlen == 8 * (o->keycount + 1);
    return (!o->marked || dead) && (!o->indexed || index);
}

int possible_record(const EdgeSstOpened *o, uint64_t size) {
    uint64_t k = o->keycount, e = o->edgecount;
    return k <= (uint64_t)1 << 24 && e <= (uint64_t)1 << 26 && within(o->keystart, o->keylen, size) &&
           within(o->offsetstart, o->offsetlen, size) && within(o->partnerstart, o->partnerlen, size) &&
           within(o->logstart, o->loglen, size) && possible_extras(o, size) &&
           (o->bits == 24 || o->bits == 32 || o->bits == 40 || o->bits == 48) && o->keylen == 16 * k &&
           o->offsetlen == (k + 1) * o->bits / 8 && o->loglen == 8 * e;
}

/* 21 at 0 and nothing else, or anything but 21; whatever is refused or absent
 * leaves the outputs. */
static void hold_refused(const char *name, EdgeSstLooked got, int is_possible, const Lent outputs[3]) {
    static const Fill fills[3] = {AS_BYTES, AS_NUMBERS, AS_MARKS};
    int i;
    if (is_possible ? got.number == EDGE_SST_RECORD : got.number != EDGE_SST_RECORD)
        differ("%s: a changed record is %" PRIu64, name, got.number);
    if (!is_possible && (got.place != 0 || got.beside != 0 || got.found != 0 || got.degree != 0 || got.index != 0 || got.compared != 0))
        differ("%s: 21 with other numbers", name);
    if (got.number == 0 && got.found)
        return;
    for (i = 0; i < 3; i++)
        hold_output(name, "output by a changed record", outputs[i], fills[i], NULL, 0);
}

static void by_record(const char *name, Bytes file, const EdgeSstOpened *o, const uint8_t key[ID]) {
    int good = possible_record(o, file.n), full;
    for (full = 0; full < 2; full++) {
        Lent outputs[3];
        EdgeSstLooked got;
        outputs[0] = lend(64, AS_BYTES);
        outputs[1] = lend(32, AS_NUMBERS);
        outputs[2] = lend(4, AS_MARKS);
        got = full ? edge_sst_lookup_with(file.p, file.n, o, key, outputs[0].bytes, outputs[0].n,
                                          (uint64_t *)outputs[1].bytes, 4, outputs[2].bytes, 4)
                   : edge_sst_partners_with(file.p, file.n, o, key, outputs[0].bytes, outputs[0].n);
        calls++;
        hold_refused(name, got, good, outputs);
        take_back(outputs[0]);
        take_back(outputs[1]);
        take_back(outputs[2]);
    }
}

static void change(EdgeSstOpened *o, int i, uint64_t x) {
    memcpy((uint8_t *)o + 8 * (size_t)i, &x, sizeof x);
}

/* Every mark but 0 is 1: of the tombstones, and of the start index. */
static void other_marks(const char *name, Bytes file, const EdgeSstOpened *o, const uint8_t key[ID], int field) {
    static const uint64_t marks[] = {2, 256, UINT64_MAX};
    EdgeSstOpened one = *o, other = *o;
    size_t i;
    change(&one, field, 1);
    for (i = 0; i < 3; i++) {
        EdgeSstLooked x, y;
        uint8_t a[64] = {0}, b[64] = {0}, c[4] = {0}, d[4] = {0};
        uint64_t l[4] = {0}, m[4] = {0};
        change(&other, field, marks[i]);
        x = edge_sst_lookup_with(file.p, file.n, &one, key, a, sizeof a, l, 4, c, 4);
        y = edge_sst_lookup_with(file.p, file.n, &other, key, b, sizeof b, m, 4, d, 4);
        calls += 2;
        if (memcmp(&x, &y, sizeof x) != 0 || memcmp(a, b, sizeof a) != 0 || memcmp(l, m, sizeof l) != 0 ||
            memcmp(c, d, sizeof c) != 0)
            differ("%s: a mark of %" PRIu64 " is not 1", name, marks[i]);
    }
}

/* The number and the places are not looked at: with any, the answer is the same. */
static void other_head(const char *name, Bytes file, const EdgeSstOpened *o, const uint8_t key[ID]) {
    EdgeSstOpened other = *o;
    uint8_t a[64] = {0}, b[64] = {0};
    EdgeSstLooked x, y;
    other.number = 21;
    other.place = UINT64_MAX;
    other.beside = UINT64_MAX;
    x = edge_sst_partners_with(file.p, file.n, o, key, a, sizeof a);
    y = edge_sst_partners_with(file.p, file.n, &other, key, b, sizeof b);
    calls += 2;
    if (memcmp(&x, &y, sizeof x) != 0 || memcmp(a, b, sizeof a) != 0)
        differ("%s: the record's number or place is looked at", name);
}

void test_records(const char *name, Bytes file, const EdgeSstOpened *opened) {
    uint8_t key[ID] = {0};
    uint64_t numbers[NUMBERS];
    int i;
    size_t k;
    memcpy(numbers, opened, sizeof numbers);
    if (opened->keycount > 0)
        memcpy(key, file.p + opened->keystart, ID);
    if (!possible_record(opened, file.n))
        differ("%s: its own record cannot be of it", name);
    for (i = FIRST; i < NUMBERS; i++) {
        uint64_t x = numbers[i];
        const uint64_t values[] = {x + 1,      x - 1,   x + 8,  x - 8,     0,
                                   UINT64_MAX, x + 256, file.n, file.n + 1, x ^ (uint64_t)1 << 32};
        for (k = 0; k < sizeof values / sizeof values[0]; k++) {
            EdgeSstOpened o = *opened;
            change(&o, i, values[k]);
            by_record(name, file, &o, key);
        }
    }
    other_marks(name, file, opened, key, MARKED);
    other_marks(name, file, opened, key, INDEXED);
    other_head(name, file, opened, key);
}
