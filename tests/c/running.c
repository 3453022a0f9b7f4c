/* The running sum: the corpus of the second program and its states, 2^30 bytes, and
 * states that never came from bytes, which are held to the model. */
#include <inttypes.h>
#include <stdio.h>
#include <stdlib.h>
#include <string.h>

#include "sums.h"

/* Every byte: a state has no padding. */
static int same_state(const State *a, const State *b) { return memcmp(a, b, sizeof *a) == 0; }

static void take_chunk(State *state, const uint8_t *p, size_t n) {
    if (update(state, p, n) != 0)
        differ("a chunk of %lu bytes is refused", (unsigned long)n);
}

/* Refused with 27, and every byte of the state stays. */
static void hold_refused(State *state, const uint8_t *p, size_t n) {
    State before = *state;
    uint64_t told = update(state, p, n);
    if (told != PAST_MOST)
        differ("%lu bytes after %" PRIu64 ": told %" PRIu64, (unsigned long)n, before.total, told);
    if (!same_state(state, &before))
        differ("%lu bytes after %" PRIu64 ": the refused chunk changed the state", (unsigned long)n, before.total);
}

static void hold_sum(const char *what, const State *state, uint64_t expected) {
    State before = *state;
    uint64_t got = sum(state);
    if (got != expected)
        differ("%s: sum %016" PRIx64 ", expected %016" PRIx64, what, got, expected);
    if (!same_state(state, &before))
        differ("%s: asking changed the state", what);
}

static void test_new(void) {
    State state = begin(), expected;
    memset(&expected, 0, sizeof expected);
    memcpy(expected.lanes, first_lanes, sizeof expected.lanes);
    if (sizeof(State) != 8 + 64 + 256 || !same_state(&state, &expected))
        differ("the new state");
    if (PAST_MOST != 27 || MOST_BYTES != 1 << 30)
        differ("the header's numbers");
    hold_sum("no chunk", &state, 0x2d06800538d394c2);
}

/* How many cuts of n bytes in two chunks give the sum and the state of one chunk. */
static size_t good_cuts(const uint8_t *bytes, size_t n, uint64_t expected) {
    State whole = begin();
    size_t cut, good = 0;
    take_chunk(&whole, bytes, n);
    for (cut = 0; cut <= n; cut++) {
        State state = begin();
        take_chunk(&state, bytes, cut);
        take_chunk(&state, bytes + cut, n - cut);
        good += sum(&state) == expected && same_state(&state, &whole);
    }
    return good;
}

static void hold_cuts(const char *line, const uint8_t *bytes, size_t n) {
    uint64_t expected = at_once(bytes, n);
    hold_line("cuts", line, "cut %lu %016" PRIx64 " %lu", (unsigned long)n, expected,
              (unsigned long)good_cuts(bytes, n, expected));
}

/* The state goes on from the line before. */
static void hold_bytes(const char *line, const uint8_t *bytes, size_t n, State *state) {
    while (state->total < n)
        take_chunk(state, bytes + state->total, 1);
    hold_line("bytes", line, "bytes %lu %016" PRIx64, (unsigned long)n, sum(state));
    hold_sum(line, state, at_once(bytes, n));
}

static void hold_chunks(const char *line, const uint8_t *bytes, size_t n, size_t size) {
    State state = begin();
    uint64_t xored = 0;
    size_t fed = 0;
    while (fed < n) {
        size_t chunk = n - fed < size ? n - fed : size;
        take_chunk(&state, bytes + fed, 0);
        take_chunk(&state, bytes + fed, chunk);
        xored ^= sum(&state);
        fed += chunk;
    }
    hold_line("chunks", line, "chunks %lu %016" PRIx64 " %016" PRIx64, (unsigned long)size, sum(&state), xored);
}

static void test_corpus(const char *dir) {
    enum { MOST = 8269 };
    Lines lines = lines_of(dir, "test_running/stdout");
    char line[LINE], kind[16];
    uint8_t *bytes = family(MOST);
    State one_by_one = begin();
    while (next_line(&lines, line)) {
        unsigned long n;
        if (sscanf(line, "%15s %lu", kind, &n) != 2 || n > MOST)
            differ("a line that is not known: %s", line);
        else if (strcmp(kind, "cut") == 0)
            hold_cuts(line, bytes, n);
        else if (strcmp(kind, "bytes") == 0)
            hold_bytes(line, bytes, n, &one_by_one);
        else
            hold_chunks(line, bytes, MOST, n);
    }
    free(bytes);
}

/* The state after the line's count of bytes, as the second program says. */
static void test_states(const char *dir) {
    enum { MOST = 2049 };
    Lines lines = lines_of(dir, "../tests/c/states.txt");
    char line[LINE];
    uint8_t *bytes = family(MOST);
    while (next_line(&lines, line)) {
        State s = begin();
        size_t n = (size_t)strtoull(line, NULL, 10);
        take_chunk(&s, bytes, n <= MOST ? n : 0);
        hold_line("state", line,
                  "%" PRIu64 " %016" PRIx64 " %016" PRIx64 " %016" PRIx64 " %016" PRIx64 " %016" PRIx64 " %016" PRIx64
                  " %016" PRIx64 " %016" PRIx64 " %016" PRIx64,
                  s.total, s.lanes[0], s.lanes[1], s.lanes[2], s.lanes[3], s.lanes[4], s.lanes[5], s.lanes[6],
                  s.lanes[7], at_once(s.buffer, sizeof s.buffer));
    }
    free(bytes);
}

/* 2^30 bytes, the first 2^20 of the family 1,024 times: their sum by xxHash 0.8.1. */
#define LONGEST_SUM 0x0a9b028adbce3fc2

/* At the bound no byte more is taken, and an empty chunk is. */
static void hold_at_bound(State state, const uint8_t *bytes, size_t large) {
    State before = state;
    hold_sum("2^30 bytes", &state, LONGEST_SUM);
    hold_refused(&state, bytes, 1);
    hold_refused(&state, bytes, large);
    take_chunk(&state, bytes, 0);
    if (state.total != MOST_BYTES || !same_state(&state, &before))
        differ("an empty chunk after 2^30 bytes");
    hold_sum("2^30 bytes and an empty chunk", &state, LONGEST_SUM);
}

/* A refused chunk is as if it had never come: ten bytes are left, eleven are too many. */
static void hold_near_bound(State state, const uint8_t *last_ten, const uint8_t *bytes, size_t large) {
    State other = state;
    hold_refused(&state, bytes, 11);
    hold_refused(&state, bytes, large);
    take_chunk(&state, last_ten, 10);
    take_chunk(&other, last_ten, 10);
    if (!same_state(&state, &other))
        differ("the state after a refused chunk");
    hold_at_bound(state, bytes, large);
}

static void test_bound(void) {
    enum { CHUNK = 1 << 20 };
    uint8_t *bytes = family(CHUNK);
    State all = begin(), but_ten;
    int i;
    for (i = 0; i < 1023; i++)
        take_chunk(&all, bytes, CHUNK);
    but_ten = all;
    take_chunk(&all, bytes, CHUNK);
    hold_at_bound(all, bytes, CHUNK);
    take_chunk(&but_ten, bytes, CHUNK - 10);
    hold_near_bound(but_ten, bytes + CHUNK - 10, bytes, CHUNK);
    free(bytes);
}

/* The next number of no order: SplitMix64. */
static uint64_t seed;
static uint64_t any(void) {
    uint64_t z = seed += 0x9e3779b97f4a7c15;
    z = (z ^ z >> 30) * 0xbf58476d1ce4e5b9;
    z = (z ^ z >> 27) * 0x94d049bb133111eb;
    return z ^ z >> 31;
}

static void fill(void *p, size_t n) {
    uint8_t *bytes = p;
    while (n-- > 0)
        bytes[n] = (uint8_t)any();
}

/* Totals of every sort: few bytes, lawful ones, around the bound and the end of all
 * numbers, and beside multiples of a buffer and of a block. */
static uint64_t any_total(void) {
    const uint64_t most = (uint64_t)1 << 30, beside = any() % 3 - 1;
    switch (any() % 10) {
    case 0:
        return any() % 600;
    case 1:
        return any() % most;
    case 2:
        return 256 * (any() % (most / 256)) + 256 + beside;
    case 3:
        return 1024 * (any() % (most / 1024)) + 1024 + beside;
    case 4:
        return most - any() % 2100;
    case 5:
        return most + 1 + any() % 3;
    case 6:
        return 256 * any() + beside;
    case 7:
        return UINT64_MAX - any() % 2100;
    case 8:
        return UINT64_MAX;
    default:
        return any();
    }
}

/* None, few, beside the ends of buffers, or any number up to 2,000. */
static size_t any_length(void) {
    switch (any() % 6) {
    case 0:
        return 0;
    case 1:
        return (size_t)(any() % 10);
    case 2:
        return (size_t)(256 * (any() % 7 + 1) + any() % 3 - 1);
    default:
        return (size_t)(any() % 2001);
    }
}

/* The parts of a state, each lent by itself. */
typedef struct {
    Lent total, lanes, buffer;
} Parts;

static Parts lend_state(const State *state) {
    Parts parts;
    parts.total = lend(sizeof state->total, AS_NUMBERS);
    parts.lanes = lend(sizeof state->lanes, AS_NUMBERS);
    parts.buffer = lend(sizeof state->buffer, AS_BYTES);
    memcpy(parts.total.bytes, &state->total, parts.total.n);
    memcpy(parts.lanes.bytes, state->lanes, parts.lanes.n);
    memcpy(parts.buffer.bytes, state->buffer, parts.buffer.n);
    return parts;
}

static void take_state_back(Parts parts) {
    take_back(parts.total);
    take_back(parts.lanes);
    take_back(parts.buffer);
}

static void hold_parts(const char *name, Parts parts, const State *expected) {
    hold_output(name, "total", parts.total, AS_NUMBERS, (const uint8_t *)&expected->total, parts.total.n);
    hold_output(name, "lanes", parts.lanes, AS_NUMBERS, (const uint8_t *)expected->lanes, parts.lanes.n);
    hold_output(name, "buffer", parts.buffer, AS_BYTES, expected->buffer, parts.buffer.n);
}

static void hold_asked(const char *name, Parts parts, const State *expected) {
    uint64_t got = asked(expected->total, (const uint64_t *)parts.lanes.bytes, parts.buffer.bytes);
    if (got != model_sum(expected))
        differ("%s: sum %016" PRIx64 ", by its definition %016" PRIx64, name, got, model_sum(expected));
    hold_parts(name, parts, expected);
}

/* A chunk into a state of any numbers: what is told, the state and the sums are the
 * model's, and so is the sum before; the chunk and all beside it stay. */
static void hold_lent(State state, const uint8_t *p, size_t n) {
    char name[64];
    Parts parts = lend_state(&state);
    Lent chunk = lend(n, AS_BYTES);
    uint64_t told;
    snprintf(name, sizeof name, "%lu bytes into a state of %" PRIu64, (unsigned long)n, state.total);
    memcpy(chunk.bytes, p, n);
    hold_asked(name, parts, &state);
    told = feed((uint64_t *)parts.total.bytes, (uint64_t *)parts.lanes.bytes, parts.buffer.bytes, chunk.bytes, n);
    if (told != model_feed(&state, p, n))
        differ("%s: told %" PRIu64, name, told);
    hold_output(name, "chunk", chunk, AS_BYTES, p, n);
    hold_asked(name, parts, &state);
    take_back(chunk);
    take_state_back(parts);
}

static void test_lent(void) {
    enum { ROUNDS = 20000, MOST = 2048 };
    uint8_t bytes[MOST];
    State state;
    int i;
    for (i = 0; i < ROUNDS; i++) {
        fill(&state, sizeof state);
        fill(bytes, sizeof bytes);
        state.total = any_total();
        hold_lent(state, bytes, any_length());
    }
}

void test_running(const char *dir) {
    test_new();
    test_corpus(dir);
    test_states(dir);
    test_bound();
    test_lent();
}
