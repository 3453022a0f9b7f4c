/* xxHash's own XXH3-64, inlined: SSE2 unless XXH_VECTOR says another. */
#ifndef XXH_VECTOR
#define XXH_VECTOR XXH_SSE2
#endif
#define XXH_INLINE_ALL
#include <xxhash.h>
