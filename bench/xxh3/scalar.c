/* The same without vectors. */
#define XXH_VECTOR XXH_SCALAR
#define sse2_xxh3_64 scalar_xxh3_64
#include "sse2.c"
