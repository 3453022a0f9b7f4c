/* The sum of n bytes that come in chunks of one size, the last one shorter. */
#ifndef CHUNKS_H
#define CHUNKS_H

#include <stddef.h>
#include <stdint.h>

typedef uint64_t chunked(const uint8_t *p, size_t n, size_t chunk);

chunked xxhash_in_chunks;

#endif
