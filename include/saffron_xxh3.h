/* XXH3-64, seed 0, default secret, of bytes at hand or in chunks. Link with libxxh3.a (`tools/staticlib xxh3`), x86-64.

   For every call: no pointer is null, also where n is 0: any other address will do there. The parts of a state are
   aligned as their types ask, and overlap neither each other nor the chunk. A call reads and writes only what it is lent,
   and nobody writes what is lent while it runs: feeding wants the state alone, asking may be done by several threads at
   once. The calls keep nothing of their own, allocate nothing and may run at the same time. Any bytes and any state may
   be lent: every call returns. */
#ifndef SAFFRON_XXH3_H
#define SAFFRON_XXH3_H

#include <stddef.h>
#include <stdint.h>

#ifdef __cplusplus
extern "C" {
#endif

/* The most bytes of a running sum, which is lawful itself, and the number of a chunk that would pass it. */
#define SAFFRON_XXH3_MOST 1073741824
#define SAFFRON_XXH3_CHUNK 27

/* The sum of the n bytes at p, however many. */
uint64_t saffron_xxh3_64(const uint8_t *p, size_t n);

/* A running sum: what is kept of the bytes so far. total counts them, lanes are XXH3's accumulators, and byte i of all,
   counted from 0, lies at i % 256 of buffer until a later one takes its place. The caller keeps it, one for each section
   that comes down; it is plain data, and a copy goes on by itself. */
typedef struct SaffronXxh3State {
    uint64_t total;
    uint64_t lanes[8];
    uint8_t buffer[256];
} SaffronXxh3State;

/* The state before any byte. */
SaffronXxh3State saffron_xxh3_new(void);

/* Takes the n bytes at p as the next chunk; the state's parts are lent. 0: the chunk is taken, and the state is that of
   all bytes, wherever they were cut. SAFFRON_XXH3_CHUNK (27): total and n together pass SAFFRON_XXH3_MOST, and nothing
   changes; a smaller chunk may follow. */
uint32_t saffron_xxh3_feed(uint64_t *total, uint64_t *lanes, uint8_t *buffer, const uint8_t *p, size_t n);

/* The sum of all bytes so far: of a state that came from saffron_xxh3_new and chunks, what saffron_xxh3_64 says of the
   whole. Asking changes nothing, and chunks may follow. */
uint64_t saffron_xxh3_asked(uint64_t total, const uint64_t *lanes, const uint8_t *buffer);

/* The same two over a whole state. */
static inline uint32_t saffron_xxh3_update(SaffronXxh3State *state, const uint8_t *p, size_t n) {
    return saffron_xxh3_feed(&state->total, state->lanes, state->buffer, p, n);
}

static inline uint64_t saffron_xxh3_sum(const SaffronXxh3State *state) {
    return saffron_xxh3_asked(state->total, state->lanes, state->buffer);
}

#ifdef __cplusplus
}
#endif

#endif
