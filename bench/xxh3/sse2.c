/* xxHash's own code. */
#include "../common/sum.h"

uint64_t sse2_xxh3_64(const uint8_t *p, size_t n);

uint64_t sse2_xxh3_64(const uint8_t *p, size_t n) { return XXH3_64bits(p, n); }
