/* xxHash's own running sum. */
#include "chunks.h"

#include "../common/sum.h"

uint64_t xxhash_in_chunks(const uint8_t *p, size_t n, size_t chunk) {
    XXH3_state_t state;
    XXH3_64bits_reset(&state);
    for (size_t fed = 0; fed < n; fed += chunk)
        XXH3_64bits_update(&state, p + fed, n - fed < chunk ? n - fed : chunk);
    return XXH3_64bits_digest(&state);
}
