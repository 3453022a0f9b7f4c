/* Opening and its record; the header; the section list; records with a number
 * changed. */
#include <inttypes.h>
#include <stdio.h>
#include <string.h>

#include "test.h"

/* All that follows a refusal's number and place is 0. */
static int nothing_else(const EdgeSstOpened *o) {
    EdgeSstOpened none;
    memset(&none, 0, sizeof none);
    none.number = o->number;
    none.place = o->place;
    return memcmp(&none, o, sizeof none) == 0;
}

/* The range of a section that may be missing, as its line has it. */
static void hold_range(const char *name, const char *what, uint64_t start, uint64_t len, uint64_t there, char text[64]) {
    if (there == 1)
        snprintf(text, 64, "%" PRIu64 " %" PRIu64, start, len);
    else
        snprintf(text, 64, "none");
    if (there > 1 || (there == 0 && (start != 0 || len != 0)))
        differ("%s: the mark or the range of the %s", name, what);
}

static void hold_opened(const char *name, const EdgeSstOpened *o, const char *expected) {
    char dead[64], starts[64];
    if (o->number != 0) {
        hold_line(name, expected, "refused %" PRIu64 " at %" PRIu64 " beside %" PRIu64, o->number, o->place, o->beside);
        if (!nothing_else(o))
            differ("%s: a refusal with other numbers", name);
        return;
    }
    hold_range(name, "dead", o->deadstart, o->deadlen, o->marked, dead);
    hold_range(name, "starts", o->indexstart, o->indexlen, o->indexed, starts);
    if (o->place != 0 || o->beside != 0)
        differ("%s: opens with a place", name);
    hold_line(name, expected,
              "opens keys %" PRIu64 " %" PRIu64 " offsets %" PRIu64 " %" PRIu64 " partners %" PRIu64 " %" PRIu64
              " logs %" PRIu64 " %" PRIu64 " dead %s starts %s n %" PRIu64 " e %" PRIu64 " bits %" PRIu64,
              o->keystart, o->keylen, o->offsetstart, o->offsetlen, o->partnerstart, o->partnerlen, o->logstart,
              o->loglen, dead, starts, o->keycount, o->edgecount, o->bits);
}

static void hex(const uint8_t id[ID], char text[2 * ID + 1]) {
    size_t i;
    for (i = 0; i < ID; i++)
        snprintf(text + 2 * i, 3, "%02x", id[i]);
}

/* A refusal's header has zeros in all other fields. */
static int no_header(const EdgeSstHeader *h) {
    EdgeSstHeader none;
    memset(&none, 0, sizeof none);
    none.number = h->number;
    none.place = h->place;
    return memcmp(&none, h, sizeof none) == 0;
}

static void hold_header(const char *name, Bytes file, Lines *lines) {
    EdgeSstHeader h = edge_sst_header(file.p, file.n);
    char line[LINE], edgetype[2 * ID + 1], source[2 * ID + 1], destination[2 * ID + 1];
    calls++;
    if (!peek_detail(lines) || !next_line(lines, line)) {
        differ("%s: no line of its header", name);
        return;
    }
    if (h.number != 0) {
        hold_line(name, line, "  header refused %" PRIu64 " at %" PRIu64 " beside %" PRIu64, h.number, h.place,
                  h.beside);
        if (!no_header(&h))
            differ("%s: a refusal with a header", name);
        return;
    }
    hex(h.edgetype, edgetype);
    hex(h.source, source);
    hex(h.destination, destination);
    hold_line(name, line, "  header minor %" PRIu64 " direction %" PRIu64 " flags %" PRIu64 " ids %s %s %s", h.minor,
              h.direction, h.flags, edgetype, source, destination);
    if (h.place != 0 || h.beside != 0 || h.direction != ((h.flags & EDGE_SST_FLAG_INVERSE) != 0))
        differ("%s: a header with a place, or its direction", name);
}

enum { ROW = 7, MOST_ROWS = 64, ROW_BYTES = ROW * 8 };

static EdgeSstListed list(Bytes file, Lent rows) {
    calls++;
    return edge_sst_sections(file.p, file.n, (uint64_t *)rows.bytes, rows.n / 8);
}

static void hold_listed(const char *name, EdgeSstListed got, uint64_t number, uint64_t place, uint64_t rows) {
    if (got.number != number || got.place != place || got.beside != 0 || got.rows != rows)
        differ("%s: sections %" PRIu64 " at %" PRIu64 ", %" PRIu64 " rows", name, got.number, got.place, got.rows);
}

/* Reads the lines of the sections; the count of them. */
static size_t expected_rows(Lines *lines, EdgeSstRow rows[MOST_ROWS]) {
    char line[LINE];
    size_t n = 0;
    while (peek_detail(lines) && next_line(lines, line) && n < MOST_ROWS) {
        EdgeSstRow *r = &rows[n++];
        sscanf(line, "  section %" SCNu64 " %" SCNu64 " %" SCNu64 " %" SCNu64 " %" SCNu64 " %" SCNu64 " %" SCNx64,
               &r->kind, &r->codec, &r->nameat, &r->namelen, &r->start, &r->len, &r->sum);
    }
    return n;
}

/* With room for the rows and more, for the rows alone, and for one number less. */
static void hold_sections(const char *name, Bytes file, const EdgeSstOpened *o, Lines *lines) {
    EdgeSstRow rows[MOST_ROWS];
    size_t n = expected_rows(lines, rows), i;
    const size_t rooms[3] = {n * ROW_BYTES + 24, n * ROW_BYTES, n > 0 ? n * ROW_BYTES - 8 : 0};
    for (i = 0; i < 3; i++) {
        Lent lent = lend(rooms[i], AS_NUMBERS);
        EdgeSstListed got = list(file, lent);
        int enough = o->number == 0 && rooms[i] >= n * ROW_BYTES;
        if (o->number != 0)
            hold_listed(name, got, o->number, o->place, 0);
        else if (enough)
            hold_listed(name, got, 0, 0, n);
        else
            hold_listed(name, got, EDGE_SST_ROOM, n, 0);
        hold_output(name, "rows", lent, AS_NUMBERS, enough ? (const uint8_t *)rows : NULL, n * ROW_BYTES);
        take_back(lent);
    }
}

void test_opening(const char *dir) {
    Bytes input = read_all(dir, "test_open/stdin");
    Lines lines = lines_of(dir, "test_open/stdout");
    char name[256], line[LINE];
    while (input.n > 0) {
        Bytes file;
        EdgeSstOpened o;
        take_name(&input, name);
        file = take_item(&input);
        o = edge_sst_open(file.p, file.n);
        calls++;
        hold_opened(name, &o, line_for(&lines, name, line));
        hold_header(name, file, &lines);
        hold_sections(name, file, &o, &lines);
        if (o.number == 0)
            test_records(name, file, &o);
        give_back(file);
    }
    if (next_line(&lines, line))
        differ("a line more than there are files: %s", line);
}
