/* The running sum by its definition, byte by byte and without vectors: what the calls
 * are held to where no corpus can, in states that never came from bytes. */
#include "sums.h"

enum { BYTES = 256, STRIPE = 64, BLOCK = 16, LANES = 8 };

static const uint64_t MOST = (uint64_t)1 << 30;
static const uint64_t PRIME32 = 0x9e3779b1, PRIME64 = 0x9e3779b185ebca87, PRIME_MIX = 0x165667919e3779f9;

/* The default secret. */
static const uint8_t secret[192] = {
    0xb8, 0xfe, 0x6c, 0x39, 0x23, 0xa4, 0x4b, 0xbe, 0x7c, 0x01, 0x81, 0x2c, 0xf7, 0x21, 0xad, 0x1c, 0xde, 0xd4, 0x6d, 0xe9,
    0x83, 0x90, 0x97, 0xdb, 0x72, 0x40, 0xa4, 0xa4, 0xb7, 0xb3, 0x67, 0x1f, 0xcb, 0x79, 0xe6, 0x4e, 0xcc, 0xc0, 0xe5, 0x78,
    0x82, 0x5a, 0xd0, 0x7d, 0xcc, 0xff, 0x72, 0x21, 0xb8, 0x08, 0x46, 0x74, 0xf7, 0x43, 0x24, 0x8e, 0xe0, 0x35, 0x90, 0xe6,
    0x81, 0x3a, 0x26, 0x4c, 0x3c, 0x28, 0x52, 0xbb, 0x91, 0xc3, 0x00, 0xcb, 0x88, 0xd0, 0x65, 0x8b, 0x1b, 0x53, 0x2e, 0xa3,
    0x71, 0x64, 0x48, 0x97, 0xa2, 0x0d, 0xf9, 0x4e, 0x38, 0x19, 0xef, 0x46, 0xa9, 0xde, 0xac, 0xd8, 0xa8, 0xfa, 0x76, 0x3f,
    0xe3, 0x9c, 0x34, 0x3f, 0xf9, 0xdc, 0xbb, 0xc7, 0xc7, 0x0b, 0x4f, 0x1d, 0x8a, 0x51, 0xe0, 0x4b, 0xcd, 0xb4, 0x59, 0x31,
    0xc8, 0x9f, 0x7e, 0xc9, 0xd9, 0x78, 0x73, 0x64, 0xea, 0xc5, 0xac, 0x83, 0x34, 0xd3, 0xeb, 0xc3, 0xc5, 0x81, 0xa0, 0xff,
    0xfa, 0x13, 0x63, 0xeb, 0x17, 0x0d, 0xdd, 0x51, 0xb7, 0xf0, 0xda, 0x49, 0xd3, 0x16, 0x55, 0x26, 0x29, 0xd4, 0x68, 0x9e,
    0x2b, 0x16, 0xbe, 0x58, 0x7d, 0x47, 0xa1, 0xfc, 0x8f, 0xf8, 0xb8, 0xd1, 0x7a, 0xd0, 0x31, 0xce, 0x45, 0xcb, 0x3a, 0x8f,
    0x95, 0x16, 0x04, 0x28, 0xaf, 0xd7, 0xfb, 0xca, 0xbb, 0x4b, 0x40, 0x7e,
};

const uint64_t first_lanes[LANES] = {
    0xc2b2ae3d,         0x9e3779b185ebca87, 0xc2b2ae3d27d4eb4f, 0x165667b19e3779f9,
    0x85ebca77c2b2ae63, 0x85ebca77,         0x27d4eb2f165667c5, 0x9e3779b1,
};

static uint64_t word(const uint8_t *p) {
    uint64_t x = 0;
    int i;
    for (i = 7; i >= 0; i--)
        x = x << 8 | p[i];
    return x;
}

/* The lower half of the product xor its upper half, by halves of 32 bits. */
static uint64_t folded(uint64_t a, uint64_t b) {
    const uint64_t low = 0xffffffff;
    uint64_t ll = (a & low) * (b & low), lh = (a & low) * (b >> 32), hl = (a >> 32) * (b & low);
    uint64_t middle = (ll >> 32) + (lh & low) + (hl & low);
    uint64_t upper = (a >> 32) * (b >> 32) + (lh >> 32) + (hl >> 32) + (middle >> 32);
    return upper ^ (middle << 32 | (ll & low));
}

/* A stripe joins with the secret from this place on. */
static void accumulate(uint64_t lanes[LANES], const uint8_t *stripe, size_t place) {
    int i;
    for (i = 0; i < LANES; i++) {
        uint64_t data = word(stripe + 8 * i), value = data ^ word(secret + place + 8 * i);
        lanes[i ^ 1] += data;
        lanes[i] += (value & 0xffffffff) * (value >> 32);
    }
}

static void scramble(uint64_t lanes[LANES]) {
    int i;
    for (i = 0; i < LANES; i++)
        lanes[i] = (lanes[i] ^ lanes[i] >> 47 ^ word(secret + 128 + 8 * i)) * PRIME32;
}

/* The stripe of this number among all, counted from 0. */
static void join(uint64_t lanes[LANES], const uint8_t *stripe, uint64_t number) {
    accumulate(lanes, stripe, (size_t)(8 * (number % BLOCK)));
    if (number % BLOCK == BLOCK - 1)
        scramble(lanes);
}

static uint64_t merged(const uint64_t lanes[LANES], uint64_t total) {
    uint64_t x = total * PRIME64;
    int i;
    for (i = 0; i < LANES; i += 2)
        x += folded(lanes[i] ^ word(secret + 11 + 8 * i), lanes[i + 1] ^ word(secret + 19 + 8 * i));
    x = (x ^ x >> 37) * PRIME_MIX;
    return x ^ x >> 32;
}

/* A full buffer is emptied when the next byte comes. */
static void take_byte(State *state, uint8_t byte) {
    uint64_t total = state->total, i;
    if (total > 0 && total % BYTES == 0)
        for (i = 0; i < BYTES / STRIPE; i++)
            join(state->lanes, state->buffer + STRIPE * i, 4 * (total / BYTES - 1) + i);
    state->buffer[total % BYTES] = byte;
    state->total = total + 1;
}

uint64_t model_feed(State *state, const uint8_t *p, size_t n) {
    size_t i;
    if (state->total > MOST || n > MOST - state->total)
        return EDGE_SST_CHUNK;
    for (i = 0; i < n; i++)
        take_byte(state, p[i]);
    return 0;
}

/* Up to 240 bytes have sums of other forms, and up to 256 nothing has joined yet:
 * what stands in the lanes does not matter. */
uint64_t model_sum(const State *state) {
    uint64_t total = state->total, emptied = total > 0 ? (total - 1) / BYTES : 0, i;
    uint64_t whole = total > 0 ? (total - 1) % BYTES / STRIPE : 0;
    uint64_t lanes[LANES];
    uint8_t last[STRIPE];
    if (total <= 240)
        return at_once(state->buffer, (size_t)total);
    for (i = 0; i < LANES; i++)
        lanes[i] = total <= BYTES ? first_lanes[i] : state->lanes[i];
    for (i = 0; i < whole; i++)
        join(lanes, state->buffer + STRIPE * i, 4 * emptied + i);
    for (i = 0; i < STRIPE; i++)
        last[i] = state->buffer[(total + 192 + i) % BYTES];
    accumulate(lanes, last, 121);
    return merged(lanes, total);
}
