/* Files whose start index is changed, with the sums of section and footer mended: 37 at the
 * first bad entry, told by every call that opens a file, 23 where it rises lawfully and is
 * wrong, 22 where the sum is left; and the writer's own indexes. */
#include <inttypes.h>
#include <stdio.h>
#include <stdlib.h>
#include <string.h>

#include "starts.h"

enum { MOST_ENTRIES = 8, ROOM = 1 << 17 };

/* A sound file with few keys, and where its index stands in the table. */
typedef struct {
    const char *name;
    Bytes file;
    EdgeSstOpened opened;
    size_t entry, count;
    uint64_t right[MOST_ENTRIES];
} Base;

static EdgeSstTold tell(uint64_t number, uint64_t place) {
    EdgeSstTold told = {0, 0, 0};
    told.number = number;
    told.place = place;
    return told;
}

/* The first entry that breaks a rule of 37; count where none does. */
static size_t first_bad(const uint64_t *starts, size_t count, uint64_t edges) {
    size_t i;
    for (i = 0; i < count; i++) {
        if (i == 0 ? starts[0] != 0 : starts[i] <= starts[i - 1])
            return i;
        if (i + 1 == count && starts[i] != edges)
            return i;
    }
    return count;
}

/* What opening is to tell of these starts, and the full check. */
static EdgeSstTold opening(const Base *b, const uint64_t *starts) {
    size_t bad = first_bad(starts, b->count, b->opened.edgecount);
    return bad == b->count ? tell(0, 0) : tell(EDGE_SST_START, bad);
}

static EdgeSstTold checking(const Base *b, const uint64_t *starts) {
    EdgeSstTold told = opening(b, starts);
    if (told.number != 0)
        return told;
    return memcmp(starts, b->right, 8 * b->count) == 0 ? told : tell(EDGE_SST_DATA, 0);
}

/* An answer begins with its refusal; where it is refused, n bytes in all, the rest is 0. */
static void hold_told(const Base *b, const char *call, const void *got, size_t n, EdgeSstTold expected) {
    static const uint8_t zeros[sizeof(EdgeSstSummary)];
    EdgeSstTold told;
    memcpy(&told, got, sizeof told);
    calls++;
    if (memcmp(&told, &expected, sizeof told) != 0)
        differ("%s changed: %s tells %" PRIu64 " at %" PRIu64 ", expected %" PRIu64 " at %" PRIu64, b->name, call,
               told.number, told.place, expected.number, expected.place);
    else if (told.number != 0 && memcmp((const uint8_t *)got + sizeof told, zeros, n - sizeof told) != 0)
        differ("%s changed: %s refuses, and tells more than that", b->name, call);
}

/* The calls that open the file and no more. */
static void ask_opening(const Base *b, Bytes file, EdgeSstTold expected) {
    EdgeSstOpened opened = edge_sst_open(file.p, file.n);
    EdgeSstHeader header = edge_sst_header(file.p, file.n);
    Lent rows = lend(8 * 7 * EDGE_SST_MOST_SECTIONS, AS_NUMBERS);
    EdgeSstListed listed = edge_sst_sections(file.p, file.n, (uint64_t *)rows.bytes, rows.n / 8);
    hold_told(b, "open", &opened, sizeof opened, expected);
    hold_told(b, "header", &header, sizeof header, expected);
    hold_told(b, "sections", &listed, sizeof listed, expected);
    if (expected.number == 0 && memcmp(&opened, &b->opened, sizeof opened) != 0)
        differ("%s changed: another record", b->name);
    if (expected.number != 0)
        hold_output(b->name, "rows of a refused file", rows, AS_NUMBERS, NULL, 0);
    take_back(rows);
}

/* The calls that check the file in full. */
static void ask_checking(const Base *b, Bytes file, EdgeSstTold expected) {
    EdgeSstTold checked = edge_sst_check(file.p, file.n);
    EdgeSstSummary summary = edge_sst_summary(file.p, file.n);
    Lent batch = lend(4096, AS_BYTES);
    EdgeSstDone done = edge_sst_read_out(file.p, file.n, batch.bytes, batch.n);
    hold_told(b, "check", &checked, sizeof checked, expected);
    hold_told(b, "summary", &summary, sizeof summary, expected);
    hold_told(b, "read-out", &done, sizeof done, expected);
    if (expected.number != 0)
        hold_output(b->name, "batch of a refused file", batch, AS_BYTES, NULL, 0);
    take_back(batch);
}

/* The lookups on the file alone, where it does not open. */
static void ask_refused(const Base *b, Bytes file, const Sought *s, EdgeSstTold expected) {
    size_t r = room_of(s);
    Lent out = lend(ID * r, AS_BYTES), logs = lend(8 * r, AS_NUMBERS), marks = lend(r, AS_MARKS);
    EdgeSstLooked some = edge_sst_partners(file.p, file.n, s->key, out.bytes, out.n);
    EdgeSstLooked all =
        edge_sst_lookup(file.p, file.n, s->key, out.bytes, out.n, (uint64_t *)logs.bytes, r, marks.bytes, marks.n);
    hold_told(b, "partners", &some, sizeof some, expected);
    hold_told(b, "lookup", &all, sizeof all, expected);
    hold_output(b->name, "partners of a refused file", out, AS_BYTES, NULL, 0);
    hold_output(b->name, "log numbers of a refused file", logs, AS_NUMBERS, NULL, 0);
    hold_output(b->name, "marks of a refused file", marks, AS_MARKS, NULL, 0);
    take_back(out);
    take_back(logs);
    take_back(marks);
}

/* The one call is the lookup by the record of opening. */
static void ask_alone(const Base *b, Bytes file, const Sought *s) {
    Lent out[2], logs[2], marks[2];
    EdgeSstLooked told[2];
    size_t r = room_of(s);
    int i;
    for (i = 0; i < 2; i++) {
        out[i] = lend(ID * r, AS_BYTES);
        logs[i] = lend(8 * r, AS_NUMBERS);
        marks[i] = lend(r, AS_MARKS);
    }
    told[0] = edge_sst_lookup(file.p, file.n, s->key, out[0].bytes, out[0].n, (uint64_t *)logs[0].bytes, r,
                              marks[0].bytes, marks[0].n);
    told[1] = edge_sst_lookup_with(file.p, file.n, &b->opened, s->key, out[1].bytes, out[1].n,
                                   (uint64_t *)logs[1].bytes, r, marks[1].bytes, marks[1].n);
    calls += 2;
    if (memcmp(&told[0], &told[1], sizeof told[0]) != 0 || memcmp(out[0].bytes, out[1].bytes, out[0].n) != 0 ||
        memcmp(logs[0].bytes, logs[1].bytes, logs[0].n) != 0 || memcmp(marks[0].bytes, marks[1].bytes, marks[0].n) != 0)
        differ("%s changed: the one call is not the lookup by the record", b->name);
    for (i = 0; i < 2; i++) {
        take_back(out[i]);
        take_back(logs[i]);
        take_back(marks[i]);
    }
}

/* Every lookup of the changed file: by the record of the sound one too, which says what the
 * index stands for. */
static void ask_keys(const Base *b, Bytes file, EdgeSstTold opens) {
    uint64_t group;
    for (group = 0; group < b->opened.keycount; group++) {
        Sought s = seek(b->name, b->file, &b->opened, group);
        EdgeSstOpened without = b->opened;
        without.indexed = 0;
        hold_both(b->name, file, &b->opened, &s);
        hold_both(b->name, file, &without, &s);
        if (opens.number != 0)
            ask_refused(b, file, &s, opens);
        else
            ask_alone(b, file, &s);
    }
}

/* The file with these starts: every call with both sums mended; and where it opens, 22 at the
 * entry where the section's sum is left as it was. */
static void with_starts(const Base *b, const uint64_t *starts) {
    EdgeSstTold opens = opening(b, starts);
    uint8_t *p = memory(b->file.n);
    Bytes file;
    size_t i;
    file.p = p;
    file.n = b->file.n;
    memcpy(p, b->file.p, b->file.n);
    for (i = 0; i < b->count; i++)
        put_number(p + b->opened.indexstart + 8 * i, starts[i], 8);
    if (opens.number == 0 && memcmp(starts, b->right, 8 * b->count) != 0)
        ask_checking(b, file, tell(EDGE_SST_SUM, b->entry));
    mend_section(p, file.n, b->entry);
    ask_opening(b, file, opens);
    ask_checking(b, file, checking(b, starts));
    ask_keys(b, file, opens);
    free(p);
}

/* Every entry with every small number, those near it, and large ones. */
static void one_entry(const Base *b) {
    uint64_t starts[MOST_ENTRIES], edges = b->opened.edgecount, x;
    size_t i;
    int bit;
    for (i = 0; i < b->count; i++) {
        memcpy(starts, b->right, sizeof starts);
        for (x = 0; x < edges + 3; x++) {
            starts[i] = x;
            with_starts(b, starts);
        }
        for (bit = 0; bit < 64; bit++) {
            starts[i] = b->right[i] ^ (uint64_t)1 << bit;
            with_starts(b, starts);
        }
        starts[i] = UINT64_MAX;
        with_starts(b, starts);
    }
}

/* Two entries, with every pair of small numbers. */
static void two_entries(const Base *b) {
    uint64_t starts[MOST_ENTRIES], most = b->opened.edgecount + 1, x, y;
    size_t i, j;
    for (i = 0; i < b->count; i++)
        for (j = i + 1; j < b->count; j++) {
            memcpy(starts, b->right, sizeof starts);
            for (x = 0; x <= most; x++)
                for (y = 0; y <= most; y++) {
                    starts[i] = x;
                    starts[j] = y;
                    with_starts(b, starts);
                }
        }
}

static Base base_of(const char *dir, const char *name) {
    Base b;
    uint64_t i;
    memset(&b, 0, sizeof b);
    b.name = name;
    b.file = find_file(dir, name);
    b.opened = edge_sst_open(b.file.p, b.file.n);
    calls++;
    b.count = (size_t)b.opened.keycount + 1;
    if (b.opened.number != 0 || b.opened.indexed != 1 || b.count > MOST_ENTRIES) {
        differ("%s: no file of few keys with an index", name);
        b.count = 0;
        return b;
    }
    while (row_of(b.file, b.entry).kind != EDGE_SST_KIND_START_INDEX)
        b.entry++;
    for (i = 0; i < b.count; i++)
        b.right[i] = edges_before(b.file, &b.opened, i);
    return b;
}

void test_changed_starts(const char *dir) {
    static const char *const files[] = {
        "indexed", "starts-at-entry-0-after-gap", "starts-at-entry-5", "starts-of-1-keys", "starts-of-0-keys",
    };
    size_t i;
    for (i = 0; i < sizeof files / sizeof files[0]; i++) {
        Base b = base_of(dir, files[i]);
        one_entry(&b);
        two_entries(&b);
        give_back(b.file);
    }
}

/* A batch of so many keys; key i has 1 + i % 3 edges, and the last edge may be dead. */
static Bytes batch_of(size_t keys, int dead) {
    size_t edges = 0, i, j;
    uint8_t *p = memory(HEADING + 3 * EDGE * keys), *at = p + HEADING;
    Bytes batch;
    memset(p, 0, HEADING + 3 * EDGE * keys);
    p[0] = EDGE_SST_BATCH_HEADING;
    for (i = 0; i < keys; i++)
        for (j = 0; j <= i % 3; j++, edges++, at += EDGE) {
            at[0] = EDGE_SST_BATCH_LIVE;
            at[14] = (uint8_t)(i >> 16), at[15] = (uint8_t)(i >> 8), at[16] = (uint8_t)i;
            at[32] = (uint8_t)j;
            put_number(at + 33, edges, 8);
        }
    if (dead)
        at[-EDGE] = EDGE_SST_BATCH_DEAD;
    batch.p = p;
    batch.n = HEADING + EDGE * edges;
    return batch;
}

/* The index of a written file is its last section, and each entry counts the edges before. */
static void hold_written(const char *name, Bytes file, size_t keys) {
    EdgeSstOpened o = edge_sst_open(file.p, file.n);
    EdgeSstHeader header = edge_sst_header(file.p, file.n);
    int wanted = keys >= 1025;
    EdgeSstRow last = row_of(file, entries_of(file) - 1);
    uint64_t before = 0, i;
    calls += 2;
    if (o.number != 0 || o.indexed != (uint64_t)wanted || header.minor != (uint64_t)wanted)
        differ("%s: the index or the minor version", name);
    if ((last.kind == EDGE_SST_KIND_START_INDEX) != wanted)
        differ("%s: the last section", name);
    if (!wanted || o.number != 0)
        return;
    if (last.start != o.indexstart || last.len != o.indexlen || o.indexlen != 8 * (keys + 1) ||
        last.start + last.len != footer_of(file))
        differ("%s: where the index lies", name);
    for (i = 0; i <= keys; before += 1 + i++ % 3)
        if (number_at(file.p + o.indexstart + 8 * i, 8) != before)
            differ("%s: entry %" PRIu64, name, i);
}

static void written(size_t keys, int dead) {
    char name[LINE];
    Bytes batch = batch_of(keys, dead), file;
    Lent out = lend(ROOM, AS_BYTES);
    EdgeSstDone needed = edge_sst_needed(batch.p, batch.n);
    EdgeSstDone done = edge_sst_write(batch.p, batch.n, out.bytes, out.n);
    snprintf(name, sizeof name, "%lu keys, %d dead, written", (unsigned long)keys, dead);
    calls += 3;
    if (done.number != 0 || needed.number != 0 || done.bytes != needed.bytes)
        differ("%s: %" PRIu64, name, done.number);
    else {
        file.p = out.bytes;
        file.n = (size_t)done.bytes;
        hold_written(name, file, keys);
        if (edge_sst_check(file.p, file.n).number != 0)
            differ("%s: it does not pass", name);
        test_keys(name, file, batch);
    }
    hold_guards(name, "file", out);
    take_back(out);
    give_back(batch);
}

void test_written_starts(void) {
    static const size_t counts[] = {0, 1, 2, 1023, 1024, 1025, 1026, 1500};
    size_t i;
    for (i = 0; i < sizeof counts / sizeof counts[0]; i++) {
        written(counts[i], 0);
        if (counts[i] > 0)
            written(counts[i], 1);
    }
}
