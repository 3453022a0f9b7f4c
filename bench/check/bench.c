/* The benchmark of the full check. */
#include <stdio.h>
#include <stdlib.h>
#include <string.h>

#include "../common/batch.h"
#include "../common/file.h"
#include "../common/plain.h"
#include "../common/rule22.h"

typedef EdgeSstTold checker(const uint8_t *p, size_t n);

typedef enum { ALL_SPLIT, ALL_DENSE, EVEN_SPLIT } form;

/* A file filled to so many bytes with keys of so many partners, and to `whole` bytes, where
 * that is not 0, with a property stream; or that of a batch. */
typedef struct {
    size_t most;
    uint64_t degree;
    form form;
    int dead;
    const batch_plan *batch;
    size_t whole;
} plan;

enum { CHANGES = 20000 };
#define PLAIN (function *)plain_check

static const plan dense_64m = {1 << 26, 1000, ALL_DENSE, 0, NULL, 0};
static const plan stream_600m = {1 << 26, 1000, ALL_DENSE, 0, NULL, 600 << 20};

static EdgeSstTold own_sums(const uint8_t *p, size_t n);

const row rows[] = {
    {"one-edge", &(plan){256, 1, ALL_SPLIT, 0, NULL, 0}, PLAIN, 8000, 0},
    {"split-64k", &(plan){1 << 16, 8, ALL_SPLIT, 0, NULL, 0}, PLAIN, 100, 0},
    {"split-64m", &(plan){1 << 26, 8, ALL_SPLIT, 0, NULL, 0}, PLAIN, 1, 0},
    {"v7-1m", &(plan){.batch = &v7_1m}, PLAIN, 1, 0},
    {"dense-64m", &dense_64m, PLAIN, 1, 1.15},
    {"dense-64m-sparing", &dense_64m, (function *)sparing_check, 1, 0},
    {"dense-64m-dead", &(plan){1 << 26, 1000, ALL_DENSE, 1, NULL, 0}, PLAIN, 1, 0},
    {"stream-600m", &stream_600m, PLAIN, 1, 1},
    {"stream-600m-own-sums", &stream_600m, (function *)own_sums, 1, 0},
    {"stream-600m-xxhash", &stream_600m, (function *)plain_sums, 1, 0},
    {0},
};

/* Files of which a byte is changed, each without and with a start index. */
static const plan small[] = {
    {1500, 5, ALL_DENSE, 1, NULL, 0}, {1500, 7, ALL_SPLIT, 1, NULL, 0}, {1500, 3, EVEN_SPLIT, 0, NULL, 0}};

enum { SMALL = sizeof small / sizeof small[0] };

function *const ours = (function *)edge_sst_check, *const empty = empty_in_registers;

static bytes input;

/* The last group is as long as there is room for. */
static bytes filled(const plan *w, int starts) {
    content c = room_for(w->most / 32 + 2, w->most + 32 * w->degree);
    uint64_t seed = 3, degree = w->degree;
    c.dead = w->dead;
    c.starts = starts;
    while (degree > 0) {
        content more = c;
        uint64_t s = seed;
        int dense = w->form == ALL_DENSE || (w->form == EVEN_SPLIT && c.keys % 2 == 1);
        add(&more, c.keys * 0xFFFFFFFFFF, turn(c.keys), degree, dense, &s);
        size_t size = size_of(&more);
        if (size <= w->most) {
            c = more;
            seed = s;
            if (degree < w->degree)
                break;
        } else {
            uint64_t less = 1 + (size - w->most) / 32;
            degree = less < degree ? degree - less : 0;
        }
    }
    if (w->whole > 0) {
        c.stream = 1;
        c.stream += w->whole - size_of(&c);
    }
    return file_of(&c);
}

/* Rule 22 alone, by our own sum. */
static EdgeSstTold own_sums(const uint8_t *p, size_t n) { return sums_by(edge_sst_sum, p, n); }

void prepare(const row *r) {
    const plan *w = r->plan;
    input = w->batch != NULL ? file_of_batch(batch_of(w->batch)) : filled(w, 0);
}

/* A file that passes has the number 0, so that each call starts at its first byte. */
uint64_t call(function *f, uint64_t last) { return ((checker *)f)(input.bytes + last, input.size).number; }

/* Ours, to which both forms of plain C are held. */
static EdgeSstTold same(const char *name, bytes f) {
    EdgeSstTold a = edge_sst_check(f.bytes, f.size), b = plain_check(f.bytes, f.size);
    EdgeSstTold c = sparing_check(f.bytes, f.size);
    if (memcmp(&a, &b, sizeof a) != 0 || memcmp(&b, &c, sizeof b) != 0)
        stop(1, "the answers differ on '%s': %llu at %llu and %llu at %llu", name, (unsigned long long)a.number,
             (unsigned long long)a.place, (unsigned long long)b.number, (unsigned long long)b.place);
    return a;
}

/* The next line of the answers that is of a check says this of the file. */
static void answered(bytes *answers, const char *name, EdgeSstTold told) {
    char line[400] = "";
    int n = snprintf(line, sizeof line, "%s: check ", name);
    if (told.number == 0)
        strcpy(line + n, "fine");
    else
        sprintf(line + n, "refused %llu at %llu beside %llu", (unsigned long long)told.number,
                (unsigned long long)told.place, (unsigned long long)told.beside);
    while (answers->size > 0) {
        const char *p = (const char *)answers->bytes, *end = memchr(p, '\n', answers->size);
        size_t length = end != NULL ? (size_t)(end - p) : answers->size, taken = length + (end != NULL);
        answers->bytes += taken;
        answers->size -= taken;
        const char *colon = memchr(p, ':', length);
        if (colon == NULL || p + length - colon < 8 || memcmp(colon, ": check ", 8) != 0)
            continue;
        if (length == strlen(line) && memcmp(p, line, length) == 0)
            return;
        stop(1, "the answer is '%.*s', not '%s'", (int)length, p, line);
    }
    stop(1, "no answer for '%s'", name);
}

static void change(const plan *w, int starts, uint64_t told[NUMBERS]) {
    bytes f = filled(w, starts), g = memory(f.size);
    for (uint64_t i = 0, seed = 1; i < CHANGES; i++) {
        change_byte(f, g, i, seed = turn(seed));
        told[same("a changed file", g).number]++;
    }
}

/* The byte before the footer is the last section's: where it is changed, rule 22 tells that section, by either sum. */
static void sums_asked(bytes f) {
    uint8_t *body = f.bytes + f.size - le32(f.bytes + f.size - TRAILER + 8);
    body[-1] ^= 1;
    EdgeSstTold a = own_sums(f.bytes, f.size), b = plain_sums(f.bytes, f.size);
    body[-1] ^= 1;
    if (a.number != EDGE_SST_SUM || a.place != le16(body) - 1 || memcmp(&a, &b, sizeof a) != 0)
        stop(1, "a changed section has the same sum");
}

void compare(void) {
    bytes corpus = read_all("crates/test_check/stdin"), answers = read_all("crates/test_check/stdout"), f;
    char name[256];
    uint64_t told[NUMBERS] = {0};
    int all = 0, fine = 0;
    for (; next_entry(&corpus, name, &f); all++) {
        EdgeSstTold t = same(name, f);
        answered(&answers, name, t);
        fine += t.number == 0;
    }
    for (const row *r = rows; r->name != NULL; r++) {
        prepare(r);
        if (same(r->name, input).number != 0 || ((checker *)r->plain)(input.bytes, input.size).number != 0)
            stop(1, "'%s' does not pass", r->name);
        sums_asked(input);
        free(input.bytes);
    }
    for (int i = 0; i < 2 * SMALL; i++)
        change(&small[i / 2], i % 2, told);
    printf("The same answers: %d files of the corpus, %d of which pass, as its answers say; those of\n", all, fine);
    printf("the table; and %d with a byte changed, by number:", 2 * SMALL * CHANGES);
    print_told(told);
}
