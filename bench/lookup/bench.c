/* The benchmark of a record lookup: partners alone, or with log numbers and dead marks. */
#include <stdio.h>
#include <stdlib.h>
#include <string.h>

#include "../common/file.h"
#include "../common/format.h"
#include "../common/plain.h"

/* The outputs of a lookup of partners alone are those up to its room; the rest it does not look at. */
typedef EdgeSstLooked looker(const uint8_t *, size_t, const EdgeSstOpened *, const uint8_t *, uint8_t *, size_t,
                             uint64_t *, size_t, uint8_t *, size_t);

enum { LARGE = 65536, LAST = LARGE - 1, SECOND = 1, TIMES = 20000 };
enum { MOST = 1000, ROOM = ID * MOST };

/* LARGE keys. Those of which `every` divides the number have so many partners, dense or
 * split; the others have one. */
typedef struct {
    uint64_t every, degree;
    int dense;
    int starts; /* with tombstones and a start index, and all groups are alike */
} shape;

static const shape split_8 = {1, 8, 0, 0}, dense_1000 = {64, MOST, 1, 0}, starts_8 = {1, 8, 0, 1};

/* What ours is, and the key that is asked for: by ours and by plain C. ANY: one after the
 * other of those of which `every` divides the number, in no order. */
typedef struct {
    const shape *shape;
    function *ours;
    uint64_t asked[2];
    int hidden; /* the record says that there is no start index */
} plan;

#define ANY UINT64_MAX
#define PLAIN (function *)plain_partners_with
#define PLAIN_LOGS (function *)plain_lookup_with
#define OWN (function *)edge_sst_partners_with
#define OWN_LOGS (function *)edge_sst_lookup_with

static const plan last = {&starts_8, OWN_LOGS, {LAST, LAST}, 0};

const row rows[] = {
    {"split-8", &(plan){&split_8, OWN, {ANY, ANY}, 0}, PLAIN, 4000, 1.3},
    {"dense-1000", &(plan){&dense_1000, OWN, {ANY, ANY}, 0}, PLAIN, 4000, 1.3},
    {"starts-last", &last, PLAIN_LOGS, 4000, 0},
    {"starts-last-own-first", &(plan){&starts_8, OWN_LOGS, {LAST, SECOND}, 0}, OWN_LOGS, 4000, 1.05},
    {"starts-own-partners", &last, OWN, 4000, 1.6},
    {"summed-last", &(plan){&starts_8, OWN_LOGS, {LAST, LAST}, 1}, PLAIN_LOGS, 4, 0},
    {0},
};

/* A sign alone: the row's plan says what is called for it. */
static void sign(void) {}
function *const ours = sign, *const empty = empty_in_memory;

/* Keys of which one is asked for: so many, from the first on, so far apart. */
typedef struct {
    uint64_t first, count, apart;
} keys;

static bytes input;
static EdgeSstOpened record;
static function *own;
static keys asked[2]; /* by plain C, by ours */
static uint64_t seed;
static uint8_t output[ROOM], marks[MOST];
static uint64_t logs[MOST];

static bytes file_of_shape(const shape *w) {
    content c = room_for(LARGE, LARGE * (w->dense ? 300 : 100));
    c.wide = 1;
    c.dead = c.starts = w->starts;
    seed = 1;
    for (uint64_t i = 0; i < LARGE; i++) {
        int large = i % w->every == 0;
        uint64_t same = 1;
        seed = turn(seed);
        add(&c, i * 0xFFFFFFFFFFFF, seed, large ? w->degree : 1, large && w->dense, w->starts ? &same : &seed);
    }
    return file_of(&c);
}

static keys keys_of(const plan *w, int of_ours) {
    uint64_t one = w->asked[!of_ours], every = w->shape->every;
    return one == ANY ? (keys){0, LARGE / every, every} : (keys){one, 1, 1};
}

void prepare(const row *r) {
    const plan *w = r->plan;
    input = file_of_shape(w->shape);
    record = edge_sst_open(input.bytes, input.size);
    if (w->hidden)
        record.indexed = 0;
    own = w->ours;
    for (int i = 0; i < 2; i++)
        asked[i] = keys_of(w, i);
    seed = 7;
}

static const uint8_t *key_at(uint64_t i) { return input.bytes + record.keystart + ID * i; }

/* One of the keys. */
static inline uint64_t one_of(const keys *k, uint64_t s) { return k->first + (s >> 40) % k->count * k->apart; }

/* The number of a lookup that finds its key is 0. */
uint64_t call(function *f, uint64_t last_number) {
    int by_ours = f == ours;
    seed = turn(seed + last_number);
    const uint8_t *key = key_at(one_of(&asked[by_ours], seed));
    return ((looker *)(by_ours ? own : f))(input.bytes, input.size, &record, key, output, ROOM, logs, MOST, marks, MOST)
        .number;
}

/* What a lookup gave and wrote; what it did not write stays. */
typedef struct {
    EdgeSstLooked answer;
    uint64_t logs[MOST];
    uint8_t out[ROOM], marks[MOST];
} result;

static void same(const result *a, const result *b) {
    if (memcmp(a, b, sizeof *a) != 0)
        stop(1, "the answers differ: %llu and %llu", (unsigned long long)a->answer.number,
             (unsigned long long)b->answer.number);
}

/* With this record and rooms for so many partners, log numbers and marks: partners alone or
 * all three. Ours and plain C must agree to every byte of the outputs. */
static EdgeSstLooked both(const EdgeSstOpened *o, const uint8_t *key, const size_t room[3], int with_logs) {
    static result a, b;
    memset(&a, 0xA5, sizeof a);
    memset(&b, 0xA5, sizeof b);
    if (with_logs) {
        a.answer = edge_sst_lookup_with(input.bytes, input.size, o, key, a.out, ID * room[0], a.logs, room[1], a.marks,
                                        room[2]);
        b.answer =
            plain_lookup_with(input.bytes, input.size, o, key, b.out, ID * room[0], b.logs, room[1], b.marks, room[2]);
    } else {
        a.answer = edge_sst_partners_with(input.bytes, input.size, o, key, a.out, ID * room[0]);
        b.answer = plain_partners_with(input.bytes, input.size, o, key, b.out, ID * room[0]);
    }
    same(&a, &b);
    return a.answer;
}

static uint8_t *group_at(uint64_t i) {
    return input.bytes + record.partnerstart + le32(input.bytes + record.offsetstart + 4 * i);
}

/* A byte that the lookup of key i reads: of its group, of its two starts, or the degree of an
 * earlier group. */
static uint8_t *byte_for(uint64_t i, uint64_t s) {
    uint8_t *start = group_at(i);
    if (s >> 33 & 1)
        return start + (s >> 8) % (uint64_t)(group_at(i + 1) - start);
    if (record.indexed)
        return input.bytes + record.indexstart + START * i + (s >> 8) % (2 * START);
    return group_at((s >> 8) % (i + 1));
}

enum { RANGES = 17 }; /* numbers of a record from its first range on */

/* The edges before key i, of which `every` divides the number. */
static uint64_t edges_before(const shape *w, uint64_t i) { return i / w->every * (w->degree - 1) + i; }

static void set_edges(EdgeSstOpened *o, uint64_t edges) {
    o->edgecount = edges < record.edgecount ? edges : record.edgecount;
    o->loglen = 8 * o->edgecount;
    o->deadlen = tombstone_bytes(o->edgecount);
}

/* Makes a record otherwise at times, by which key `index` is looked up: one number by one, the
 * starts of the next groups, or fewer edges than there are, also so many that the group is cut. */
static void change_record(EdgeSstOpened *o, const shape *w, uint64_t index, uint64_t i, uint64_t s) {
    if (i % 7 == 0)
        (&o->keystart)[s % RANGES] += (s >> 20) % 3 - 1;
    if (i % 13 == 2)
        o->indexstart += START;
    if (i % 11 == 1)
        set_edges(o, (s >> 12) % record.edgecount);
    if (i % 11 == 2)
        set_edges(o, edges_before(w, index) + (s >> 12) % (2 * w->degree));
}

/* Keys that are there and absent, other records, rooms too short, and a byte changed. Where
 * degrees are summed log numbers are asked for one time in sixteen. */
static void hold(const row *r, uint64_t told[NUMBERS]) {
    const shape *w = ((const plan *)r->plan)->shape;
    prepare(r);
    for (uint64_t i = 0; i < TIMES; i++) {
        uint64_t s = turn(i + 1 + TIMES * (uint64_t)(r - rows)), index = (s >> 40) % (LARGE / w->every) * w->every;
        uint8_t key[ID], *at = byte_for(index, s), was = *at;
        size_t room[3] = {MOST, MOST, MOST};
        EdgeSstOpened o = record;
        memcpy(key, key_at(index), ID);
        key[ID - 1] ^= i % 5 == 0;
        change_record(&o, w, index, i, s);
        if (i % 3 == 0)
            room[(s >> 24) % 3] = (s >> 50) % (w->degree + 2);
        if (i % 2 == 0)
            *at = (uint8_t)(s >> 3);
        told[both(&o, key, room, 0).number]++;
        if (record.indexed || i % 16 == 3)
            told[both(&o, key, room, 1).number]++;
        *at = was;
    }
}

/* Starts of a group that are as far apart as its degree: about 0, of which the first is the larger one
 * at times, and about the edge count. */
static void hold_starts(uint64_t degree, uint64_t told[NUMBERS]) {
    const size_t room[3] = {MOST, MOST, MOST};
    const uint64_t around[2] = {0, record.edgecount};
    uint8_t *at = input.bytes + record.indexstart + START * SECOND, was[2 * START];
    memcpy(was, at, sizeof was);
    for (uint64_t k = 0; k < 8 * degree; k++) {
        uint64_t end = around[k % 2] + k / 2 - 2 * degree;
        put64(at, end - degree);
        put64(at + START, end);
        told[both(&record, key_at(SECOND), room, 1).number]++;
    }
    memcpy(at, was, sizeof was);
}

/* Two keys of one row are found after as many comparisons, and have as many partners. */
static void alike(const row *r) {
    const size_t room[3] = {MOST, MOST, MOST};
    EdgeSstLooked a = both(&record, key_at(asked[0].first), room, 1);
    EdgeSstLooked b = both(&record, key_at(asked[1].first), room, 1);
    if (!a.found || !b.found || a.compared != b.compared || a.degree != b.degree)
        stop(1, "'%s' compares keys that are found otherwise", r->name);
}

void compare(void) {
    uint64_t told[NUMBERS] = {0};
    for (const row *r = rows; r->name != NULL; r++) {
        hold(r, told);
        if (record.indexed)
            hold_starts(((const plan *)r->plan)->shape->degree, told);
        alike(r);
        free(input.bytes);
    }
    printf("The same answers and bytes, by number:");
    print_told(told);
}
