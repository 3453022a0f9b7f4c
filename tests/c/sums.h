/* The calls of the sum under one name each, so that one test holds both archives:
 * libxxh3.a where ALONE is defined, libedge_sst_c.a where it is not. */
#ifndef SUMS_H
#define SUMS_H

#include "test.h"

#ifdef ALONE

#include "../../include/saffron_xxh3.h"

typedef SaffronXxh3State State;

enum { PAST_MOST = SAFFRON_XXH3_CHUNK, MOST_BYTES = SAFFRON_XXH3_MOST };

static inline uint64_t at_once(const uint8_t *p, size_t n) {
    calls++;
    return saffron_xxh3_64(p, n);
}

static inline State begin(void) {
    calls++;
    return saffron_xxh3_new();
}

/* 0, or the number of the refusal. */
static inline uint64_t feed(uint64_t *total, uint64_t *lanes, uint8_t *buffer, const uint8_t *p, size_t n) {
    calls++;
    return saffron_xxh3_feed(total, lanes, buffer, p, n);
}

static inline uint64_t asked(uint64_t total, const uint64_t *lanes, const uint8_t *buffer) {
    calls++;
    return saffron_xxh3_asked(total, lanes, buffer);
}

static inline uint64_t update(State *state, const uint8_t *p, size_t n) {
    calls++;
    return saffron_xxh3_update(state, p, n);
}

static inline uint64_t sum(const State *state) {
    calls++;
    return saffron_xxh3_sum(state);
}

#else

typedef EdgeSstRunning State;

enum { PAST_MOST = EDGE_SST_CHUNK, MOST_BYTES = EDGE_SST_MOST_BYTES };

static inline uint64_t at_once(const uint8_t *p, size_t n) {
    calls++;
    return edge_sst_sum(p, n);
}

static inline State begin(void) {
    calls++;
    return edge_sst_running_new();
}

/* The number; no refusal of a chunk has a place. */
static inline uint64_t number_of(EdgeSstTold told) {
    if (told.place != 0 || told.beside != 0)
        differ("a chunk is told with a place");
    return told.number;
}

static inline uint64_t feed(uint64_t *total, uint64_t *lanes, uint8_t *buffer, const uint8_t *p, size_t n) {
    calls++;
    return number_of(edge_sst_running_feed(total, lanes, buffer, p, n));
}

static inline uint64_t asked(uint64_t total, const uint64_t *lanes, const uint8_t *buffer) {
    calls++;
    return edge_sst_running_asked(total, lanes, buffer);
}

static inline uint64_t update(State *state, const uint8_t *p, size_t n) {
    calls++;
    return number_of(edge_sst_running_update(state, p, n));
}

static inline uint64_t sum(const State *state) {
    calls++;
    return edge_sst_running_sum(state);
}

#endif

/* The same by their definition, byte by byte: see model.c. */
extern const uint64_t first_lanes[8];
uint64_t model_feed(State *state, const uint8_t *p, size_t n);
uint64_t model_sum(const State *state);

#endif
