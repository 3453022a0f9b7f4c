/* The summary of a file, held to its line, and to a model over the records of the
 * read-out. */
#include <inttypes.h>
#include <stdarg.h>
#include <stdio.h>
#include <stdlib.h>
#include <string.h>

#include "test.h"

enum { KEY_AT = 1, LOG_AT = 33, LOG = 8 };

static void take_key(EdgeSstSummary *s, const uint8_t *key) {
    if (!s->extremes || memcmp(key, s->smallestkey, ID) < 0)
        memcpy(s->smallestkey, key, ID);
    if (!s->extremes || memcmp(key, s->largestkey, ID) > 0)
        memcpy(s->largestkey, key, ID);
}

static void take_log(EdgeSstSummary *s, uint64_t log) {
    if (!s->extremes || log < s->smallestlog)
        s->smallestlog = log;
    if (!s->extremes || log > s->largestlog)
        s->largestlog = log;
}

static void take_edge(EdgeSstSummary *s, const uint8_t *edge) {
    Bytes log = {edge + LOG_AT, LOG};
    take_key(s, edge + KEY_AT);
    take_log(s, take_number(&log, LOG));
    s->extremes = 1;
    s->edgecount++;
    if (edge[0] == EDGE_SST_BATCH_DEAD)
        s->tombstones++;
}

/* A key whose edges have all been taken. Its bucket is the last power of two that its
 * degree reaches. */
static void take_degree(EdgeSstSummary *s, uint64_t degree) {
    uint64_t power = 1;
    size_t bucket = 0;
    while (2 * power <= degree) {
        power *= 2;
        bucket++;
    }
    s->keycount++;
    s->buckets[bucket]++;
    if (s->largestdegree < degree)
        s->largestdegree = degree;
}

static int of_another_key(const uint8_t *edge, const uint8_t *next) {
    return memcmp(edge + KEY_AT, next + KEY_AT, ID) != 0;
}

/* The model: the records of a batch one after the other. */
static EdgeSstSummary summary_of(Bytes batch) {
    EdgeSstSummary s;
    uint64_t degree = 0;
    size_t at;
    memset(&s, 0, sizeof s);
    for (at = HEADING; at < batch.n; at += EDGE) {
        const uint8_t *edge = batch.p + at;
        take_edge(&s, edge);
        degree++;
        if (at + EDGE == batch.n || of_another_key(edge, edge + EDGE)) {
            take_degree(&s, degree);
            degree = 0;
        }
    }
    return s;
}

/* The call, with the file between guards: it stays as it is. */
EdgeSstSummary ask_summary(const char *name, Bytes file) {
    Lent lent = lend(file.n, AS_BYTES);
    EdgeSstSummary s;
    memcpy(lent.bytes, file.p, file.n);
    s = edge_sst_summary(lent.bytes, lent.n);
    calls++;
    hold_output(name, "file", lent, AS_BYTES, file.p, file.n);
    take_back(lent);
    return s;
}

/* Every byte of the answer. */
void hold_summary(const char *name, const EdgeSstSummary *got, const EdgeSstSummary *expected) {
    const uint8_t *a = (const uint8_t *)got, *b = (const uint8_t *)expected;
    size_t i;
    for (i = 0; i < sizeof *got; i++)
        if (a[i] != b[i]) {
            differ("%s: byte %lu of the summary is %u, expected %u", name, (unsigned long)i, a[i], b[i]);
            return;
        }
}

/* A refusal, and nothing else. */
static EdgeSstSummary refused(EdgeSstTold told) {
    EdgeSstSummary s;
    memset(&s, 0, sizeof s);
    s.number = told.number;
    s.place = told.place;
    s.beside = told.beside;
    return s;
}

/* What the full check and the read-out of a file say that its summary is. An edge has 17
 * bytes or more in a file. */
static EdgeSstSummary expected_of(const char *name, Bytes file) {
    EdgeSstTold told = edge_sst_check(file.p, file.n);
    size_t room = HEADING + 3 * file.n;
    uint8_t *out;
    Bytes batch;
    EdgeSstSummary s;
    if (told.number != 0)
        return refused(told);
    out = memory(room);
    batch.p = out;
    batch.n = (size_t)edge_sst_read_out(file.p, file.n, out, room).bytes;
    if (batch.n < HEADING)
        differ("%s: a file that passes is not read out", name);
    s = summary_of(batch);
    free(out);
    return s;
}

void test_summary(const char *name, Bytes file) {
    EdgeSstSummary got = ask_summary(name, file), expected = expected_of(name, file);
    hold_summary(name, &got, &expected);
}

/* Puts more text behind the text. */
static void add(char text[LINE], const char *format, ...) {
    size_t n = strlen(text);
    va_list list;
    va_start(list, format);
    vsnprintf(text + n, LINE - n, format, list);
    va_end(list);
}

static void add_key(char text[LINE], const uint8_t key[ID]) {
    size_t i;
    for (i = 0; i < ID; i++)
        add(text, "%02x", key[i]);
}

static void add_extremes(char text[LINE], const EdgeSstSummary *s) {
    if (!s->extremes) {
        add(text, " without edges");
        return;
    }
    add(text, " from ");
    add_key(text, s->smallestkey);
    add(text, " to ");
    add_key(text, s->largestkey);
    add(text, " logs %" PRIu64 " to %" PRIu64, s->smallestlog, s->largestlog);
}

/* The summary as a line of the corpora has it. */
static void put_line(char text[LINE], const EdgeSstSummary *s) {
    size_t i;
    text[0] = 0;
    add(text, "summary ");
    if (s->number != 0) {
        add(text, "refused %" PRIu64 " at %" PRIu64 " beside %" PRIu64, s->number, s->place, s->beside);
        return;
    }
    add(text, "keys %" PRIu64 " edges %" PRIu64 " tombstones %" PRIu64 " degree %" PRIu64, s->keycount, s->edgecount,
        s->tombstones, s->largestdegree);
    add_extremes(text, s);
    add(text, " buckets");
    for (i = 0; i < EDGE_SST_BUCKETS; i++)
        if (s->buckets[i] != 0)
            add(text, " %lu:%" PRIu64, (unsigned long)i, s->buckets[i]);
}

void test_summary_line(const char *name, Bytes file, const char *line) {
    EdgeSstSummary got = ask_summary(name, file);
    char text[LINE];
    put_line(text, &got);
    hold_line(name, line, "%s", text);
    test_summary(name, file);
}
