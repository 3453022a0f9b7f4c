/* The four lookups: the corpus' calls, the same with other rooms and by other
 * calls, and every key of a file that passes. */
#include <inttypes.h>
#include <stdio.h>
#include <stdlib.h>
#include <string.h>

#include "test.h"

/* record is null where the file is opened by the call. */
typedef struct {
    Bytes file;
    const EdgeSstOpened *record;
    int full;
    uint8_t key[ID];
} Question;

typedef struct {
    size_t partners, logs, marks;
} Rooms;

/* partners, logs and marks hold told.degree entries where the key was found. */
typedef struct {
    EdgeSstLooked told;
    uint8_t *partners;
    uint64_t *logs;
    uint8_t *marks;
} Answer;

typedef struct {
    Lent partners, logs, marks;
} Outputs;

static Outputs lend_rooms(Rooms r) {
    Outputs o;
    o.partners = lend(r.partners, AS_BYTES);
    o.logs = lend(8 * r.logs, AS_NUMBERS);
    o.marks = lend(r.marks, AS_MARKS);
    return o;
}

static void take_rooms_back(Outputs o) {
    take_back(o.partners);
    take_back(o.logs);
    take_back(o.marks);
}

static EdgeSstLooked ask(const Question *q, Outputs o) {
    const uint8_t *p = q->file.p;
    size_t n = q->file.n, m = o.partners.n, l = o.logs.n / 8, k = o.marks.n;
    uint64_t *logs = (uint64_t *)o.logs.bytes;
    calls++;
    if (q->record == NULL)
        return q->full ? edge_sst_lookup(p, n, q->key, o.partners.bytes, m, logs, l, o.marks.bytes, k)
                       : edge_sst_partners(p, n, q->key, o.partners.bytes, m);
    return q->full ? edge_sst_lookup_with(p, n, q->record, q->key, o.partners.bytes, m, logs, l, o.marks.bytes, k)
                   : edge_sst_partners_with(p, n, q->record, q->key, o.partners.bytes, m);
}

static int same_told(EdgeSstLooked a, EdgeSstLooked b) {
    return a.number == b.number && a.place == b.place && a.beside == b.beside && a.found == b.found &&
           a.degree == b.degree && a.index == b.index && a.compared == b.compared;
}

static void hold_told(const char *name, EdgeSstLooked got, EdgeSstLooked expected) {
    if (!same_told(got, expected))
        differ("%s: told %" PRIu64 " at %" PRIu64 " beside %" PRIu64 ", found %" PRIu64 " degree %" PRIu64
               " index %" PRIu64 " compared %" PRIu64,
               name, got.number, got.place, got.beside, got.found, got.degree, got.index, got.compared);
}

static void hold_outputs(const char *name, Outputs o, const Answer *e, int full) {
    size_t d = (size_t)e->told.degree;
    int found = e->told.number == 0 && e->told.found, all = found && full;
    hold_output(name, "partners", o.partners, AS_BYTES, found ? e->partners : NULL, ID * d);
    hold_output(name, "log numbers", o.logs, AS_NUMBERS, all ? (const uint8_t *)e->logs : NULL, 8 * d);
    hold_output(name, "marks", o.marks, AS_MARKS, all ? e->marks : NULL, d);
}

/* Asks with these rooms and holds the answer and every output byte. */
static void hold(const char *name, const Question *q, Rooms r, const Answer *e) {
    Outputs o = lend_rooms(r);
    hold_told(name, ask(q, o), e->told);
    hold_outputs(name, o, e, q->full);
    take_rooms_back(o);
}

static Rooms rooms(size_t partners, size_t logs, size_t marks) {
    Rooms r;
    r.partners = partners;
    r.logs = logs;
    r.marks = marks;
    return r;
}

static Answer refusal(uint64_t number, uint64_t place) {
    Answer e;
    memset(&e, 0, sizeof e);
    e.told.number = number;
    e.told.place = place;
    return e;
}

/* A key that was found: with room for it alone, with more, and with one too
 * little of each output. Partners alone ask for no room but theirs. */
static void found_rooms(const char *name, const Question *q, const Answer *e) {
    size_t d = (size_t)e->told.degree, n = ID * d;
    Answer room = refusal(EDGE_SST_ROOM, d);
    hold(name, q, rooms(n, d, d), e);
    hold(name, q, rooms(n + 40, d + 5, d + 9), e);
    hold(name, q, rooms(n - 1, d, d), &room);
    hold(name, q, rooms(0, 0, 0), &room);
    hold(name, q, rooms(n, d - 1, d), q->full ? &room : e);
    hold(name, q, rooms(n, d, d - 1), q->full ? &room : e);
}

/* What is absent or refused for another reason is so with any room. */
static void other_rooms(const char *name, const Question *q, const Answer *e) {
    hold(name, q, rooms(0, 0, 0), e);
    hold(name, q, rooms(ID, 1, 1), e);
    hold(name, q, rooms(333, 33, 3), e);
}

static void keep(Answer *e, Outputs o) {
    size_t d = (size_t)e->told.degree;
    e->partners = memory(ID * d);
    e->logs = memory(8 * d);
    e->marks = memory(d);
    memcpy(e->partners, o.partners.bytes, ID * d < o.partners.n ? ID * d : o.partners.n);
    memcpy(e->logs, o.logs.bytes, 8 * d < o.logs.n ? 8 * d : o.logs.n);
    memcpy(e->marks, o.marks.bytes, d < o.marks.n ? d : o.marks.n);
}

static void drop(Answer *e) {
    free(e->partners);
    free(e->logs);
    free(e->marks);
}

/* A call that was short of room by 'degree' partners finds as many with that room. */
static void after_short(const char *name, const Question *q, uint64_t degree) {
    size_t d = (size_t)degree;
    Outputs o = lend_rooms(rooms(ID * d, d, d));
    Answer e = refusal(0, 0);
    e.told = ask(q, o);
    if (e.told.number != 0 || e.told.found != 1 || e.told.degree != degree)
        differ("%s: with the room that refusal 20 asked for", name);
    else {
        keep(&e, o);
        found_rooms(name, q, &e);
        drop(&e);
    }
    take_rooms_back(o);
}

static void with_rooms(const char *name, const Question *q, const Answer *e) {
    if (e->told.number == EDGE_SST_ROOM)
        after_short(name, q, e->told.place);
    else if (e->told.number == 0 && e->told.found)
        found_rooms(name, q, e);
    else
        other_rooms(name, q, e);
}

/* The same by the other calls: by the record of opening where the file was asked
 * alone, and the partners alone where they are not short of room and neither an
 * earlier degree nor the start index was the fault. */
static void by_other_calls(const char *name, const Question *q, const Answer *e) {
    Question other = *q;
    EdgeSstOpened o = edge_sst_open(q->file.p, q->file.n);
    calls++;
    if (q->record == NULL && o.number == 0) {
        other.record = &o;
        with_rooms(name, &other, e);
    }
    if (q->full && e->told.number != EDGE_SST_DEGREES && e->told.number != EDGE_SST_ROOM) {
        other.full = 0;
        with_rooms(name, &other, e);
    }
}

/* The sums at a line's end. */
static void hold_sums(const char *name, Outputs o, const char *line) {
    char got[128];
    const char *sums = strstr(line, " sums ");
    snprintf(got, sizeof got, " sums %016" PRIx64 " %016" PRIx64 " %016" PRIx64, whole_sum(name, o.partners),
             whole_sum(name, o.logs), whole_sum(name, o.marks));
    if (sums == NULL || strcmp(sums, got) != 0)
        differ("%s: got%s, expected '%s'", name, got, line);
}

static EdgeSstLooked told_by(const char *name, const char *line) {
    EdgeSstLooked t;
    memset(&t, 0, sizeof t);
    if (sscanf(line, "found %" SCNu64 " at %" SCNu64 " compared %" SCNu64, &t.degree, &t.index, &t.compared) == 3)
        t.found = 1;
    else if (sscanf(line, "absent compared %" SCNu64, &t.compared) != 1 &&
             sscanf(line, "refused %" SCNu64 " at %" SCNu64 " beside %" SCNu64, &t.number, &t.place, &t.beside) != 3)
        differ("%s: no answer in '%s'", name, line);
    return t;
}

static void read_id(const char *hex, uint8_t id[ID]) {
    int i;
    for (i = 0; i < ID; i++) {
        char digits[3] = {hex[2 * i], hex[2 * i + 1], 0};
        id[i] = (uint8_t)strtoul(digits, NULL, 16);
    }
}

/* The partners that the expected lines list. */
static void listed(const char *name, Lines *lines, Answer *e, int full) {
    size_t d = (size_t)e->told.degree, i;
    char line[LINE], hex[33];
    for (i = 0; i < d; i++) {
        unsigned mark = 0;
        int fields;
        if (!peek_detail(lines) || !next_line(lines, line)) {
            differ("%s: fewer partners listed than found", name);
            return;
        }
        fields = sscanf(line, "  partner %32s log %" SCNu64 " mark %u", hex, &e->logs[i], &mark);
        if (fields != (full ? 3 : 1))
            differ("%s: '%s'", name, line);
        read_id(hex, e->partners + ID * i);
        e->marks[i] = (uint8_t)mark;
    }
}

/* A call of the corpus: the numbers and the whole outputs by their sums; where the
 * partners are listed, every byte. Then the same with other rooms and calls. */
static void corpus_call(const char *name, const Question *q, Rooms r, Lines *lines) {
    char line[LINE];
    const char *expected = line_for(lines, name, line);
    Outputs o = lend_rooms(r);
    Answer e = refusal(0, 0);
    EdgeSstLooked got = ask(q, o);
    e.told = told_by(name, expected);
    hold_told(name, got, e.told);
    hold_sums(name, o, expected);
    keep(&e, o);
    if (peek_detail(lines)) {
        listed(name, lines, &e, q->full);
        hold_outputs(name, o, &e, q->full);
    }
    take_rooms_back(o);
    with_rooms(name, q, &e);
    by_other_calls(name, q, &e);
    drop(&e);
}

static EdgeSstOpened take_record(Bytes *input) {
    EdgeSstOpened o;
    memset(&o, 0, sizeof o);
    o.keystart = take_number(input, 8), o.keylen = take_number(input, 8);
    o.offsetstart = take_number(input, 8), o.offsetlen = take_number(input, 8);
    o.partnerstart = take_number(input, 8), o.partnerlen = take_number(input, 8);
    o.logstart = take_number(input, 8), o.loglen = take_number(input, 8);
    o.deadstart = take_number(input, 8), o.deadlen = take_number(input, 8);
    o.marked = take_number(input, 1);
    o.keycount = take_number(input, 8), o.edgecount = take_number(input, 8);
    o.bits = take_number(input, 1);
    o.indexstart = take_number(input, 8), o.indexlen = take_number(input, 8);
    o.indexed = take_number(input, 1);
    return o;
}

static void take_call(Bytes *input, Bytes file, int by_record, Lines *lines) {
    char name[256];
    Question q;
    Rooms r;
    EdgeSstOpened record;
    take_name(input, name);
    q.file = file;
    q.full = (int)take_number(input, 1);
    memcpy(q.key, take(input, ID).p, ID);
    r.partners = (size_t)take_number(input, 4);
    r.logs = (size_t)take_number(input, 4);
    r.marks = (size_t)take_number(input, 4);
    if (by_record)
        record = take_record(input);
    q.record = by_record ? &record : NULL;
    corpus_call(name, &q, r, lines);
}

/* A file of the corpus of lookups that passes has its keys looked up too. */
static void keys_of(Bytes file) {
    EdgeSstDone done;
    Lent out;
    calls++;
    if (edge_sst_check(file.p, file.n).number != 0)
        return;
    out = lend(0, AS_BYTES);
    done = edge_sst_read_out(file.p, file.n, out.bytes, 0);
    take_back(out);
    out = lend((size_t)done.place, AS_BYTES);
    done = edge_sst_read_out(file.p, file.n, out.bytes, out.n);
    calls += 2;
    if (done.number != 0 || done.bytes != out.n)
        differ("a file that passes is not read out");
    else {
        Bytes batch;
        batch.p = out.bytes;
        batch.n = out.n;
        test_keys("a file of the lookups", file, batch);
    }
    take_back(out);
}

void test_lookups(const char *dir) {
    Bytes input = read_all(dir, "test_lookup/stdin"), file = {NULL, 0};
    Lines lines = lines_of(dir, "test_lookup/stdout");
    char line[LINE];
    while (input.n > 0) {
        uint64_t kind = take_number(&input, 1);
        if (kind != 1) {
            take_call(&input, file, kind == 3, &lines);
            continue;
        }
        give_back(file);
        file = take_item(&input);
        keys_of(file);
    }
    give_back(file);
    if (next_line(&lines, line))
        differ("a line more than there are calls: %s", line);
}

/* The keys of a batch, one for each run of edges, and where each run begins. */
typedef struct {
    Bytes batch;
    size_t count;
    size_t *first; /* count + 1 edges */
} Keys;

static const uint8_t *edge_of(const Keys *k, size_t i) { return k->batch.p + HEADING + EDGE * i; }

static const uint8_t *key_of(const Keys *k, size_t i) { return edge_of(k, k->first[i]) + 1; }

static Keys keys_in(Bytes batch) {
    Keys k;
    size_t edges = (batch.n - HEADING) / EDGE, i;
    k.batch = batch;
    k.count = 0;
    k.first = memory((edges + 1) * sizeof k.first[0]);
    for (i = 0; i < edges; i++)
        if (i == 0 || memcmp(edge_of(&k, i) + 1, edge_of(&k, i - 1) + 1, ID) != 0)
            k.first[k.count++] = i;
    k.first[k.count] = edges;
    return k;
}

/* The format's search, once more: absence or the index, and how many were compared. */
static EdgeSstLooked search(const Keys *k, const uint8_t key[ID]) {
    size_t low = 0, high = k->count;
    EdgeSstLooked t;
    memset(&t, 0, sizeof t);
    while (low < high) {
        size_t middle = low + (high - low) / 2;
        int order = memcmp(key_of(k, middle), key, ID);
        t.compared++;
        if (order == 0) {
            t.found = 1;
            t.index = middle;
            t.degree = k->first[middle + 1] - k->first[middle];
            return t;
        }
        if (order < 0)
            low = middle + 1;
        else
            high = middle;
    }
    return t;
}

static uint64_t log_of(const uint8_t *edge) {
    Bytes b;
    b.p = edge + 1 + 2 * ID;
    b.n = 8;
    return take_number(&b, 8);
}

/* What a lookup of this key has to say, by the batch. */
static Answer answer_by(const Keys *k, const uint8_t key[ID]) {
    Answer e = refusal(0, 0);
    size_t d, j;
    e.told = search(k, key);
    d = (size_t)e.told.degree;
    e.partners = memory(ID * d);
    e.logs = memory(8 * d);
    e.marks = memory(d);
    for (j = 0; j < d; j++) {
        const uint8_t *edge = edge_of(k, k->first[e.told.index] + j);
        memcpy(e.partners + ID * j, edge + 1 + ID, ID);
        e.logs[j] = log_of(edge);
        e.marks[j] = edge[0] == 2;
    }
    return e;
}

/* By the record, with all rooms; with 'alone' by the file alone too. */
static void hold_key(const char *name, Bytes file, const EdgeSstOpened *o, const Keys *k, const uint8_t key[ID],
                     int alone) {
    Answer e = answer_by(k, key);
    Question q;
    q.file = file;
    memcpy(q.key, key, ID);
    for (q.full = 0; q.full < 2; q.full++) {
        q.record = o;
        with_rooms(name, &q, &e);
        q.record = NULL;
        if (alone)
            hold(name, &q, rooms(ID * (size_t)e.told.degree, (size_t)e.told.degree, (size_t)e.told.degree), &e);
    }
    drop(&e);
}

/* The id one above, or one below; ids wrap. */
static void beside(uint8_t id[ID], int up) {
    int i = ID;
    while (i-- > 0) {
        id[i] = (uint8_t)(up ? id[i] + 1 : id[i] - 1);
        if (id[i] != (up ? 0 : 255))
            return;
    }
}

/* Every key, by the record without its start index too, and the ids beside each. A lookup
 * from the file alone opens it, which takes a while where there are many keys: then only
 * some are asked for so. */
void test_keys(const char *name, Bytes file, Bytes batch) {
    enum { FEW = 200, SOME = 37 };
    Keys k = keys_in(batch);
    EdgeSstOpened o = edge_sst_open(file.p, file.n), summed = o;
    size_t i;
    int side;
    calls++;
    summed.indexed = 0;
    if (o.number != 0 || o.keycount != k.count || o.edgecount != k.first[k.count])
        differ("%s: opening and the read-out count otherwise", name);
    for (i = 0; i < k.count; i++) {
        int alone = k.count <= FEW || i % SOME == 0;
        hold_key(name, file, &o, &k, key_of(&k, i), alone);
        if (o.indexed)
            hold_key(name, file, &summed, &k, key_of(&k, i), 0);
        for (side = 0; side < 2; side++) {
            uint8_t key[ID];
            memcpy(key, key_of(&k, i), ID);
            beside(key, side);
            hold_key(name, file, &o, &k, key, alone);
        }
    }
    free(k.first);
}
