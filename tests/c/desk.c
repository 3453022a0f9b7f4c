/* The full check, the read-out and the writer, with the summary of each file. */
#include <inttypes.h>
#include <stdio.h>
#include <string.h>

#include "test.h"

enum { ROOM = 262144, FILE_SHOWN = 300 };

typedef EdgeSstDone Call(const uint8_t *p, size_t n, uint8_t *out, size_t m);

static EdgeSstDone call(Call *f, Bytes in, Lent out) {
    calls++;
    return f(in.p, in.n, out.bytes, out.n);
}

static int same_done(EdgeSstDone a, EdgeSstDone b) {
    return a.number == b.number && a.place == b.place && a.beside == b.beside && a.bytes == b.bytes;
}

static void hold_done(const char *name, EdgeSstDone got, EdgeSstDone expected) {
    if (!same_done(got, expected))
        differ("%s: %" PRIu64 " at %" PRIu64 " beside %" PRIu64 ", %" PRIu64 " bytes; expected %" PRIu64 " at %" PRIu64
               " beside %" PRIu64 ", %" PRIu64,
               name, got.number, got.place, got.beside, got.bytes, expected.number, expected.place, expected.beside,
               expected.bytes);
}

/* So many bytes were written, or are needed. */
static EdgeSstDone done(uint64_t bytes) {
    EdgeSstDone d = {0, 0, 0, 0};
    d.bytes = bytes;
    return d;
}

/* So many bytes do not fit. */
static EdgeSstDone too_short(uint64_t bytes) {
    EdgeSstDone d = {EDGE_SST_ROOM, 0, 0, 0};
    d.place = bytes;
    return d;
}

/* With this room: all bytes of the answer, or refusal 20 and the output as it was. */
static void hold_room(const char *name, Call *f, Bytes in, Bytes answer, size_t room) {
    Lent out = lend(room, AS_BYTES);
    EdgeSstDone got = call(f, in, out);
    hold_done(name, got, room >= answer.n ? done(answer.n) : too_short(answer.n));
    hold_output(name, "output", out, AS_BYTES, room >= answer.n ? answer.p : NULL, answer.n);
    take_back(out);
}

static void hold_rooms(const char *name, Call *f, Bytes in, Bytes answer) {
    hold_room(name, f, in, answer, answer.n);
    hold_room(name, f, in, answer, answer.n + 77);
    hold_room(name, f, in, answer, answer.n - 1);
    hold_room(name, f, in, answer, 0);
}

/* A refusal comes with any room, and the output stays. */
static void hold_refusal(const char *name, Call *f, Bytes in, EdgeSstDone told, size_t room) {
    Lent out = lend(room, AS_BYTES);
    hold_done(name, call(f, in, out), told);
    hold_output(name, "output", out, AS_BYTES, NULL, 0);
    take_back(out);
}

static Bytes bytes_of(const uint8_t *p, uint64_t n) {
    Bytes b;
    b.p = p;
    b.n = (size_t)n;
    return b;
}

/* Refused, as the line says, whose last word is the sum of the output. */
static void hold_refused_line(const char *name, const char *what, const char *word, EdgeSstDone got, Lent out,
                              const char *line) {
    hold_line(name, line, "%s refused %" PRIu64 " at %" PRIu64 " beside %" PRIu64 " %s %016" PRIx64, what, got.number,
              got.place, got.beside, word, whole_sum(name, out));
    if (got.bytes != 0)
        differ("%s: bytes of a refused call", name);
}

/* The call with one byte too little, by its line. */
static void hold_short(const char *name, Call *f, Bytes in, const char *word, uint64_t needed, const char *line) {
    Lent out = lend((size_t)needed - 1, AS_BYTES);
    EdgeSstDone got = call(f, in, out);
    hold_refused_line(name, "short", word, got, out, line);
    take_back(out);
}

static EdgeSstTold check(Bytes file) {
    calls++;
    return edge_sst_check(file.p, file.n);
}

static void hold_check(const char *name, Bytes file, const char *line) {
    EdgeSstTold told = check(file);
    if (told.number == 0 && told.place == 0 && told.beside == 0)
        hold_line(name, line, "check fine");
    else
        hold_line(name, line, "check refused %" PRIu64 " at %" PRIu64 " beside %" PRIu64, told.number, told.place,
                  told.beside);
}

/* A file that passes: its read-out with other rooms, its keys, its batch written, and
 * summaries of it with bits changed. */
static void file_passes(const char *name, Bytes file, Bytes batch) {
    hold_rooms(name, edge_sst_read_out, file, batch);
    test_keys(name, file, batch);
    test_again(name, batch);
    test_damaged(name, file);
}

static void check_file(const char *name, Bytes file, Lines *lines) {
    char line[LINE];
    Lent out = lend(ROOM, AS_BYTES);
    EdgeSstDone got;
    hold_check(name, file, line_for(lines, name, line));
    test_summary_line(name, file, line_for(lines, name, line));
    got = call(edge_sst_read_out, file, out);
    line_for(lines, name, line);
    if (got.number != 0) {
        hold_refused_line(name, "read-out", "sum", got, out, line + strlen(name) + 2);
        hold_refusal(name, edge_sst_read_out, file, got, 0);
        hold_refusal(name, edge_sst_read_out, file, got, 1000);
    } else {
        Bytes batch = bytes_of(out.bytes, got.bytes);
        hold_line(name, line + strlen(name) + 2, "read-out %" PRIu64 " bytes sum %016" PRIx64, got.bytes,
                  whole_sum(name, out));
        hold_short(name, edge_sst_read_out, file, "sum", got.bytes, line_for(lines, name, line));
        file_passes(name, file, batch);
    }
    take_back(out);
}

static void each_item(const char *dir, const char *corpus, void (*test)(const char *name, Bytes item, Lines *lines)) {
    char path[LINE], name[256], line[LINE];
    Bytes input;
    Lines lines;
    snprintf(path, sizeof path, "%s/stdin", corpus);
    input = read_all(dir, path);
    snprintf(path, sizeof path, "%s/stdout", corpus);
    lines = lines_of(dir, path);
    while (input.n > 0) {
        Bytes item;
        take_name(&input, name);
        item = take_item(&input);
        test(name, item, &lines);
        give_back(item);
    }
    if (next_line(&lines, line))
        differ("a line more than there are items: %s", line);
}

void test_checks(const char *dir) { each_item(dir, "test_check", check_file); }

static EdgeSstDone needed(Bytes batch) {
    calls++;
    return edge_sst_needed(batch.p, batch.n);
}

/* The file passes, and its read-out is the batch. */
static void hold_back(const char *name, Bytes file, Bytes batch) {
    if (check(file).number != 0)
        differ("%s: the written file does not pass", name);
    hold_rooms(name, edge_sst_read_out, file, batch);
}

void test_again(const char *name, Bytes batch) {
    EdgeSstDone n = needed(batch);
    Lent out = lend((size_t)n.bytes, AS_BYTES);
    if (n.number != 0)
        differ("%s: the batch of a read-out is refused", name);
    hold_done(name, call(edge_sst_write, batch, out), done(n.bytes));
    hold_back(name, bytes_of(out.bytes, n.bytes), batch);
    take_back(out);
}

static void hold_needed(const char *name, EdgeSstDone n, const char *line) {
    if (n.number == 0) {
        hold_line(name, line, "needed %" PRIu64, n.bytes);
        hold_done(name, n, done(n.bytes));
    } else {
        hold_line(name, line, "needed refused %" PRIu64 " at %" PRIu64 " beside %" PRIu64, n.number, n.place, n.beside);
        if (n.bytes != 0)
            differ("%s: bytes of a refused batch", name);
    }
}

/* A small file's bytes in hexadecimal digits. */
static void hold_hex(const char *name, Bytes file, const char *line) {
    char hex[2 * FILE_SHOWN + 1];
    size_t i;
    for (i = 0; i < file.n; i++)
        sprintf(hex + 2 * i, "%02x", file.p[i]);
    hold_line(name, line, "bytes %s", hex);
}

/* A batch that was written: the short call, the bytes, the file read back. */
static void batch_written(const char *name, Bytes batch, Bytes file, Lines *lines) {
    char line[LINE];
    hold_short(name, edge_sst_write, batch, "all", file.n, line_for(lines, name, line));
    if (file.n <= FILE_SHOWN)
        hold_hex(name, file, line_for(lines, name, line));
    hold_check(name, file, line_for(lines, name, line));
    test_summary_line(name, file, line_for(lines, name, line));
    hold_line(name, line_for(lines, name, line), "reads back");
    hold_back(name, file, batch);
    hold_rooms(name, edge_sst_write, batch, file);
    test_keys(name, file, batch);
}

static void write_batch(const char *name, Bytes batch, Lines *lines) {
    char line[LINE];
    Lent out = lend(ROOM, AS_BYTES);
    EdgeSstDone n = needed(batch), got;
    hold_needed(name, n, line_for(lines, name, line));
    got = call(edge_sst_write, batch, out);
    line_for(lines, name, line);
    if (got.number != 0) {
        hold_refused_line(name, "write", "all", got, out, line + strlen(name) + 2);
        hold_refusal(name, edge_sst_write, batch, got, 0);
        hold_refusal(name, edge_sst_write, batch, got, 1000);
    } else {
        Bytes file = bytes_of(out.bytes, got.bytes);
        hold_line(name, line + strlen(name) + 2, "wrote %" PRIu64 " sum %016" PRIx64 " all %016" PRIx64, got.bytes,
                  edge_sst_sum(file.p, file.n), whole_sum(name, out));
        hold_done(name, got, done(n.bytes));
        batch_written(name, batch, file, lines);
    }
    take_back(out);
}

void test_writes(const char *dir) { each_item(dir, "test_write", write_batch); }
