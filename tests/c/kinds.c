/* Sound files with the kind of one section changed: every call that opens a file refuses
 * exactly the reserved kinds, 0x0007 to 0x00FF, with 36 at the entry. Where the file still
 * opens, every call answers as before, but for the kind in the section list. */
#include <inttypes.h>
#include <stdio.h>
#include <string.h>

#include "test.h"

enum { PARTNERS = 4, ROOM = 4096 };

/* A file that passes, and what the calls answer about it and about its first key. */
typedef struct {
    const char *name;
    Bytes file;
    EdgeSstOpened opened;
    EdgeSstHeader header;
    EdgeSstSummary summary;
    EdgeSstDone done;
    uint8_t batch[ROOM];
    uint8_t key[ID];
    EdgeSstLooked looked;
    uint8_t partners[PARTNERS * ID], marks[PARTNERS];
    uint64_t logs[PARTNERS];
} Sound;

/* The file with the kind of an entry changed, and what every call that opens it is to
 * tell. */
typedef struct {
    char name[LINE];
    Bytes file;
    size_t entry;
    uint64_t kind;
    EdgeSstTold told;
} Changed;

static EdgeSstTold tell(uint64_t number, uint64_t place) {
    EdgeSstTold told = {0, 0, 0};
    told.number = number;
    told.place = place;
    return told;
}

/* What a call gives, n bytes, begins with its refusal; after that of a refused call there are
 * zeros. A call that is not refused gives exactly the answer. */
static void hold(const Changed *c, const char *call, const void *got, const void *answer, size_t n) {
    static const uint8_t zeros[sizeof(EdgeSstSummary)];
    EdgeSstTold told;
    memcpy(&told, got, sizeof told);
    calls++;
    if (memcmp(&told, &c->told, sizeof told) != 0)
        differ("%s: %s tells %" PRIu64 " at %" PRIu64 " beside %" PRIu64 ", expected %" PRIu64 " at %" PRIu64, c->name,
               call, told.number, told.place, told.beside, c->told.number, c->told.place);
    else if (told.number == 0 && memcmp(got, answer, n) != 0)
        differ("%s: %s gives another answer", c->name, call);
    if (told.number != 0 && memcmp((const uint8_t *)got + sizeof told, zeros, n - sizeof told) != 0)
        differ("%s: %s refuses, and tells more than that", c->name, call);
}

/* An output of a refused call is as it was; that of another begins with the answer. */
static void hold_lent(const Changed *c, const char *what, Lent lent, Fill fill, const void *answer, uint64_t n) {
    hold_output(c->name, what, lent, fill, c->told.number == 0 ? answer : NULL, (size_t)n);
    take_back(lent);
}

/* The rows are those of the sound file, with the new kind. */
static void ask_rows(const Changed *c, const Sound *s) {
    EdgeSstRow rows[EDGE_SST_MOST_SECTIONS];
    EdgeSstListed answer = {0, 0, 0, 0}, got;
    Lent lent = lend(sizeof rows, AS_NUMBERS);
    size_t i;
    answer.rows = entries_of(s->file);
    for (i = 0; i < answer.rows; i++)
        rows[i] = row_of(s->file, i);
    rows[c->entry].kind = c->kind;
    got = edge_sst_sections(c->file.p, c->file.n, (uint64_t *)lent.bytes, lent.n / 8);
    hold(c, "sections", &got, &answer, sizeof got);
    hold_lent(c, "rows", lent, AS_NUMBERS, rows, sizeof rows[0] * answer.rows);
}

static void ask_frame(const Changed *c, const Sound *s) {
    EdgeSstOpened opened = edge_sst_open(c->file.p, c->file.n);
    EdgeSstHeader header = edge_sst_header(c->file.p, c->file.n);
    hold(c, "open", &opened, &s->opened, sizeof opened);
    hold(c, "header", &header, &s->header, sizeof header);
}

static void ask_desk(const Changed *c, const Sound *s) {
    EdgeSstTold checked = edge_sst_check(c->file.p, c->file.n);
    EdgeSstSummary summary = ask_summary(c->name, c->file);
    Lent batch = lend(sizeof s->batch, AS_BYTES);
    EdgeSstDone done = edge_sst_read_out(c->file.p, c->file.n, batch.bytes, batch.n);
    hold(c, "check", &checked, &c->told, sizeof checked);
    hold(c, "summary", &summary, &s->summary, sizeof summary);
    hold(c, "read-out", &done, &s->done, sizeof done);
    hold_lent(c, "batch", batch, AS_BYTES, s->batch, s->done.bytes);
}

static void ask_keys(const Changed *c, const Sound *s) {
    uint64_t d = s->looked.degree;
    Lent alone = lend(sizeof s->partners, AS_BYTES), partners = lend(sizeof s->partners, AS_BYTES);
    Lent logs = lend(sizeof s->logs, AS_NUMBERS), marks = lend(sizeof s->marks, AS_MARKS);
    EdgeSstLooked some = edge_sst_partners(c->file.p, c->file.n, s->key, alone.bytes, alone.n);
    EdgeSstLooked all = edge_sst_lookup(c->file.p, c->file.n, s->key, partners.bytes, partners.n,
                                        (uint64_t *)logs.bytes, PARTNERS, marks.bytes, marks.n);
    hold(c, "partners", &some, &s->looked, sizeof some);
    hold(c, "lookup", &all, &s->looked, sizeof all);
    hold_lent(c, "partners alone", alone, AS_BYTES, s->partners, ID * d);
    hold_lent(c, "partners", partners, AS_BYTES, s->partners, ID * d);
    hold_lent(c, "log numbers", logs, AS_NUMBERS, s->logs, 8 * d);
    hold_lent(c, "marks", marks, AS_MARKS, s->marks, d);
}

/* The lookups by the record of the sound file answer as they did: they do not look at
 * the table. */
static void ask_by_record(const Changed *c, const Sound *s) {
    size_t d = (size_t)s->looked.degree;
    Lent partners = lend(sizeof s->partners, AS_BYTES);
    Lent logs = lend(sizeof s->logs, AS_NUMBERS), marks = lend(sizeof s->marks, AS_MARKS);
    EdgeSstLooked some = edge_sst_partners_with(c->file.p, c->file.n, &s->opened, s->key, partners.bytes, partners.n);
    EdgeSstLooked all = edge_sst_lookup_with(c->file.p, c->file.n, &s->opened, s->key, partners.bytes, partners.n,
                                             (uint64_t *)logs.bytes, PARTNERS, marks.bytes, marks.n);
    calls += 2;
    if (memcmp(&some, &s->looked, sizeof some) != 0 || memcmp(&all, &s->looked, sizeof all) != 0)
        differ("%s: another answer by the record", c->name);
    hold_output(c->name, "partners by the record", partners, AS_BYTES, s->partners, ID * d);
    hold_output(c->name, "log numbers by the record", logs, AS_NUMBERS, (const uint8_t *)s->logs, 8 * d);
    hold_output(c->name, "marks by the record", marks, AS_MARKS, s->marks, d);
    take_back(partners);
    take_back(logs);
    take_back(marks);
}

/* Puts the kind into the entry and mends the sum of the footer. */
static void change_kind(uint8_t *p, Bytes file, size_t entry, uint64_t kind) {
    memcpy(p, file.p, file.n);
    put_number(p + entry_of(file, entry), kind, 2);
    mend_footer(p, file.n);
}

/* Asks every call of the file with this kind at this entry. */
static void with_kind(const Sound *s, size_t entry, uint64_t kind, EdgeSstTold told) {
    Changed c;
    uint8_t *p = memory(s->file.n);
    change_kind(p, s->file, entry, kind);
    snprintf(c.name, sizeof c.name, "%s, kind %" PRIu64 " at entry %lu", s->name, kind, (unsigned long)entry);
    c.file.p = p;
    c.file.n = s->file.n;
    c.entry = entry;
    c.kind = kind;
    c.told = told;
    ask_frame(&c, s);
    ask_rows(&c, s);
    ask_desk(&c, s);
    ask_keys(&c, s);
    ask_by_record(&c, s);
    give_back(c.file);
}

/* What is told of a section of this kind where a skipped one was, in a file of one edge
 * and no flags. It has three bytes: too many for tombstones, too few for fences and for a
 * start index. A section with a name is of no kind that is read. A property stream wants its
 * flag bit. */
static EdgeSstTold told_of(const Sound *s, size_t entry, uint64_t kind) {
    static const uint64_t read[] = {0, 9, 9, 9, 9, 12, 15};
    int named = s->file.p[entry_of(s->file, entry) + 3] != 0;
    int streams = s->file.p[12] & EDGE_SST_FLAG_PROPERTIES;
    if (kind >= 0x0007 && kind <= 0x00FF)
        return tell(EDGE_SST_RESERVED, entry);
    if (kind == EDGE_SST_KIND_PROPERTIES)
        return tell(streams ? 0 : EDGE_SST_COUNTS, 0);
    if (kind >= EDGE_SST_KIND_KEYS && kind <= EDGE_SST_KIND_FENCES)
        return tell(named ? EDGE_SST_TABLE : read[kind], 0);
    if (kind == EDGE_SST_KIND_START_INDEX)
        return tell(named ? EDGE_SST_TABLE : EDGE_SST_COUNTS, 0);
    return tell(0, 0);
}

static void each_kind(const Sound *s, size_t entry) {
    static const uint64_t above[] = {0x01FF, 0x0200, 0x0201, 0x0300, 0x0700, 0xFF00, 0xFFFF};
    uint64_t kind;
    size_t i;
    for (kind = 0; kind <= 0x0101; kind++)
        with_kind(s, entry, kind, told_of(s, entry, kind));
    for (i = 0; i < sizeof above / sizeof above[0]; i++)
        with_kind(s, entry, above[i], told_of(s, entry, above[i]));
}

/* A reserved kind in place of each section: one of kinds 1 to 4 is missing then, which is
 * told first. */
static void each_entry(const Sound *s) {
    static const uint64_t kinds[] = {0x0007, 0x0008, 0x0080, 0x00FF};
    size_t entries = entries_of(s->file), entry, i;
    for (entry = 0; entry < entries; entry++) {
        uint64_t was = number_at(s->file.p + entry_of(s->file, entry), 2);
        int needed = was >= EDGE_SST_KIND_KEYS && was <= EDGE_SST_KIND_LOG_NUMBERS;
        for (i = 0; i < sizeof kinds / sizeof kinds[0]; i++)
            with_kind(s, entry, kinds[i], needed ? tell(EDGE_SST_TABLE, 0) : tell(EDGE_SST_RESERVED, entry));
    }
}

static Sound sound_file(const char *dir, const char *name) {
    Sound s;
    memset(&s, 0, sizeof s);
    s.name = name;
    s.file = find_file(dir, name);
    s.opened = edge_sst_open(s.file.p, s.file.n);
    s.header = edge_sst_header(s.file.p, s.file.n);
    s.summary = ask_summary(name, s.file);
    s.done = edge_sst_read_out(s.file.p, s.file.n, s.batch, sizeof s.batch);
    memcpy(s.key, s.file.p + s.opened.keystart, ID);
    s.looked = edge_sst_lookup(s.file.p, s.file.n, s.key, s.partners, sizeof s.partners, s.logs, PARTNERS, s.marks,
                               sizeof s.marks);
    calls += 5;
    if (edge_sst_check(s.file.p, s.file.n).number != 0 || s.looked.found != 1 || s.looked.degree > PARTNERS)
        differ("%s: it does not pass, or its first key is not found", name);
    return s;
}

static void hold_text(void) {
    if (EDGE_SST_RESERVED != 36 || strcmp(edge_sst_text(36), "a section of a reserved kind") != 0)
        differ("the name or the text of 36");
    if (EDGE_SST_KIND_RESERVED_FIRST != 0x0007 || EDGE_SST_KIND_RESERVED_LAST != 0x00FF)
        differ("the ends of the reserved range");
    if (edge_sst_has_beside(EDGE_SST_RESERVED))
        differ("36 has a second place");
}

/* A skipped section as the first, a middle and the last entry, and one among sections of
 * all kinds. */
void test_kinds(const char *dir) {
    static const struct {
        const char *name;
        size_t entry;
    } files[] = {
        {"beside-reserved-kind-65535-first", 0},
        {"beside-reserved-kind-65535-middle", 2},
        {"beside-reserved-kind-65535-last", 4},
        {"full", 2},
    };
    size_t i;
    hold_text();
    for (i = 0; i < sizeof files / sizeof files[0]; i++) {
        Sound s = sound_file(dir, files[i].name);
        each_kind(&s, files[i].entry);
        each_entry(&s);
        give_back(s.file);
    }
}
