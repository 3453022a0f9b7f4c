/* plain.c once more, which reads the lower halves of dense partners only where the
 * upper ones are equal. */
#define SPARING
#define plain_sums sparing_sums
#define plain_edges sparing_edges
#define plain_check sparing_check
#include "plain.c"
