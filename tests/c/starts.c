/* The start index in lookups: by the record with it and without it, by records that claim or
 * hide one, and by every range that such a record can have. Each answer, and every byte of the
 * outputs, is held to a model written here: where a group's log numbers begin, and 19. */
#include <inttypes.h>
#include <stdio.h>
#include <stdlib.h>
#include <string.h>

#include "starts.h"

/* The number that these bytes of the offsets say. */
static uint64_t offset_at(Bytes file, const EdgeSstOpened *o, uint64_t i) {
    size_t width = (size_t)o->bits / 8;
    return number_at(file.p + o->offsetstart + width * (size_t)i, width);
}

/* The degree of a sound group: its first varint. */
static uint64_t degree_of(Bytes file, const EdgeSstOpened *o, uint64_t group) {
    const uint8_t *p = file.p + o->partnerstart + offset_at(file, o, group);
    uint64_t degree = 0;
    int bits = 0;
    do
        degree |= (uint64_t)(*p & 127) << bits, bits += 7;
    while (*p++ & 128);
    return degree;
}

uint64_t edges_before(Bytes file, const EdgeSstOpened *o, uint64_t group) {
    uint64_t sum = 0, i;
    for (i = 0; i < group; i++)
        sum += degree_of(file, o, i);
    return sum;
}

static uint64_t start_at(Bytes file, const EdgeSstOpened *o, uint64_t i) {
    return number_at(file.p + o->indexstart + 8 * i, 8);
}

/* Where the log numbers of a group of this degree begin, by the index if the record says
 * that there is one; 0 if nowhere. */
static int begins(Bytes file, const EdgeSstOpened *o, uint64_t group, uint64_t degree, uint64_t *begin) {
    uint64_t end;
    *begin = o->indexed ? start_at(file, o, group) : edges_before(file, o, group);
    end = o->indexed ? start_at(file, o, group + 1) : *begin + degree;
    return end >= *begin && end - *begin == degree && end <= o->edgecount;
}

/* A refusal and no more. */
static EdgeSstLooked refused(uint64_t number, uint64_t place) {
    EdgeSstLooked told;
    memset(&told, 0, sizeof told);
    told.number = number;
    told.place = place;
    return told;
}

/* What the lookups are to say, and the log numbers and marks that they write. */
typedef struct {
    EdgeSstLooked told;
    uint64_t logs[MOST_DEGREE];
    uint8_t marks[MOST_DEGREE];
} Model;

static Model model(Bytes file, const EdgeSstOpened *o, const Sought *s, int full) {
    Model m;
    uint64_t begin, i;
    memset(&m, 0, sizeof m);
    m.told = s->told;
    if (!possible_record(o, file.n)) {
        m.told = refused(EDGE_SST_RECORD, 0);
        return m;
    }
    if (!full || !s->told.found)
        return m;
    if (!begins(file, o, s->told.index, s->told.degree, &begin)) {
        m.told = refused(EDGE_SST_DEGREES, s->told.index);
        return m;
    }
    for (i = 0; i < s->told.degree; i++) {
        uint64_t e = begin + i;
        m.logs[i] = number_at(file.p + o->logstart + 8 * e, 8);
        m.marks[i] = o->marked ? file.p[o->deadstart + e / 8] >> e % 8 & 1 : 0;
    }
    return m;
}

size_t room_of(const Sought *s) { return (size_t)s->told.degree + 1; }

static void hold_by(const char *name, Bytes file, const EdgeSstOpened *o, const Sought *s, int full) {
    Model m = model(file, o, s, full);
    size_t d = m.told.found ? (size_t)m.told.degree : 0, r = room_of(s);
    Lent out = lend(ID * r, AS_BYTES), logs = lend(8 * r, AS_NUMBERS), marks = lend(r, AS_MARKS);
    EdgeSstLooked got = full ? edge_sst_lookup_with(file.p, file.n, o, s->key, out.bytes, out.n, (uint64_t *)logs.bytes,
                                                    r, marks.bytes, marks.n)
                             : edge_sst_partners_with(file.p, file.n, o, s->key, out.bytes, out.n);
    calls++;
    if (memcmp(&got, &m.told, sizeof got) != 0)
        differ("%s: index %" PRIu64 " at %" PRIu64 " of %" PRIu64 " bytes: told %" PRIu64 " at %" PRIu64
               ", expected %" PRIu64 " at %" PRIu64,
               name, o->indexed, o->indexstart, o->indexlen, got.number, got.place, m.told.number, m.told.place);
    hold_output(name, "partners by an index", out, AS_BYTES, m.told.found ? s->partners : NULL, ID * d);
    hold_output(name, "log numbers by an index", logs, AS_NUMBERS, full ? (const uint8_t *)m.logs : NULL, 8 * d);
    hold_output(name, "marks by an index", marks, AS_MARKS, full ? m.marks : NULL, d);
    take_back(out);
    take_back(logs);
    take_back(marks);
}

void hold_both(const char *name, Bytes file, const EdgeSstOpened *o, const Sought *s) {
    hold_by(name, file, o, s, 0);
    hold_by(name, file, o, s, 1);
}

Sought seek(const char *name, Bytes file, const EdgeSstOpened *o, uint64_t group) {
    EdgeSstOpened without = *o;
    Sought s;
    memset(&s, 0, sizeof s);
    without.indexed = 0;
    if (group < o->keycount)
        memcpy(s.key, file.p + o->keystart + ID * group, ID);
    s.told = edge_sst_partners_with(file.p, file.n, &without, s.key, s.partners, sizeof s.partners);
    calls++;
    if (s.told.number != 0 || s.told.degree > MOST_DEGREE || s.told.found != (group < o->keycount))
        differ("%s: key %" PRIu64 " is not found", name, group);
    return s;
}

/* The record as it is, with any number but 0 for 1, and without its index, whatever numbers
 * stand there then. */
static void hides(const char *name, Bytes file, const EdgeSstOpened *own, const Sought *s) {
    const uint64_t wild[] = {0, 1, own->indexstart, file.n, UINT64_MAX, (uint64_t)1 << 63};
    EdgeSstOpened o = *own;
    size_t i, j;
    hold_both(name, file, &o, s);
    for (o.indexed = 2; o.indexed != 0; o.indexed <<= 31)
        hold_both(name, file, &o, s);
    for (i = 0; i < sizeof wild / sizeof wild[0]; i++)
        for (j = 0; j < sizeof wild / sizeof wild[0]; j++) {
            o.indexstart = wild[i];
            o.indexlen = wild[j];
            hold_both(name, file, &o, s);
        }
}

/* Starts and lengths that lie beside what the file has, at its ends, and at the ends of the
 * numbers. */
static void claims(const char *name, Bytes file, const EdgeSstOpened *own, const Sought *s) {
    const uint64_t n = file.n, l = 8 * (own->keycount + 1), most = UINT64_MAX, top = (uint64_t)1 << 63;
    const uint64_t starts[] = {0,
                               1,
                               63,
                               own->keystart,
                               own->logstart,
                               own->indexstart + 1,
                               n - l,
                               n - l + 1,
                               n,
                               n + 1,
                               most,
                               most - l,
                               top,
                               top - l,
                               0 - l,
                               1 - l,
                               (uint64_t)1 << 32,
                               own->indexstart | top};
    const uint64_t lengths[] = {l, l - 1, l + 1, l - 8, l + 8, 0, n, most, top, most - own->indexstart, l | top};
    EdgeSstOpened o = *own;
    size_t i, j;
    o.indexed = 1;
    for (i = 0; i < sizeof starts / sizeof starts[0]; i++)
        for (j = 0; j < sizeof lengths / sizeof lengths[0]; j++) {
            o.indexstart = starts[i];
            o.indexlen = lengths[j];
            hold_both(name, file, &o, s);
        }
    for (j = 0; j < sizeof lengths / sizeof lengths[0]; j++) {
        o.indexstart = own->indexstart;
        o.indexlen = lengths[j];
        hold_both(name, file, &o, s);
    }
}

/* An index that begins at every byte of the file, and a few past its end. */
static void everywhere(const char *name, Bytes file, const EdgeSstOpened *own, const Sought *s) {
    EdgeSstOpened o = *own;
    o.indexed = 1;
    o.indexlen = 8 * (own->keycount + 1);
    for (o.indexstart = 0; o.indexstart < file.n + 9; o.indexstart++)
        hold_both(name, file, &o, s);
}

/* Counts in the record that go with other lengths of the index. */
static void other_counts(const char *name, Bytes file, const EdgeSstOpened *own, const Sought *s) {
    EdgeSstOpened o = *own;
    uint64_t edges;
    for (edges = 0; edges <= own->edgecount; edges++) {
        o.edgecount = edges;
        o.loglen = 8 * edges;
        o.deadlen = (edges + 7) / 8;
        hold_both(name, file, &o, s);
    }
    o = *own;
    o.keycount = UINT64_MAX;
    o.indexlen = 0;
    hold_both(name, file, &o, s);
}

/* A file of the corpus of opening by every key, or by some where it has many. */
static void sound_file(const char *dir, const char *name) {
    Bytes file = find_file(dir, name);
    EdgeSstOpened o = edge_sst_open(file.p, file.n);
    uint64_t step = o.keycount < 8 ? 1 : o.keycount / 3, group = 0;
    calls++;
    if (o.number != 0)
        differ("%s: it does not open", name);
    do {
        Sought s = seek(name, file, &o, group);
        hides(name, file, &o, &s);
        claims(name, file, &o, &s);
        if (file.n < 1000) {
            everywhere(name, file, &o, &s);
            other_counts(name, file, &o, &s);
        }
        group += step;
    } while (group < o.keycount);
    give_back(file);
}

static void hold_declared(void) {
    if (EDGE_SST_START != 37 || strcmp(edge_sst_text(37), "start index entry") != 0 || edge_sst_has_beside(37))
        differ("the name, the text or the places of 37");
    if (EDGE_SST_KIND_START_INDEX != 0x0200)
        differ("the kind of the start index");
    if (sizeof(EdgeSstOpened) != 160 || offsetof(EdgeSstOpened, indexstart) != 136 ||
        offsetof(EdgeSstOpened, indexlen) != 144 || offsetof(EdgeSstOpened, indexed) != 152)
        differ("the fields of the record");
}

void test_starts(const char *dir) {
    static const char *const files[] = {
        "indexed",           "starts-at-entry-0-after-gap",
        "starts-at-entry-4", "starts-sections-reversed",
        "starts-of-1-keys",  "starts-of-0-keys",
        "starts-above-255",  "starts-of-1025-keys",
        "starts-of-20-keys", "three-groups",
        "one-edge",          "heading-only",
    };
    size_t i;
    hold_declared();
    for (i = 0; i < sizeof files / sizeof files[0]; i++)
        sound_file(dir, files[i]);
    test_changed_starts(dir);
    test_written_starts();
}
