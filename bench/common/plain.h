/* The plain C that ours is compared with: the same arguments and answers as in
 * include/edge_sst.h, the same rules in the same order, no heap. */
#ifndef PLAIN_H
#define PLAIN_H

#include "../../include/edge_sst.h"

EdgeSstOpened plain_open(const uint8_t *p, size_t n);
EdgeSstHeader plain_header(const uint8_t *p, size_t n);
EdgeSstLooked plain_partners_with(const uint8_t *p, size_t n, const EdgeSstOpened *o, const uint8_t key[16],
                                  uint8_t *out, size_t m);
EdgeSstLooked plain_lookup_with(const uint8_t *p, size_t n, const EdgeSstOpened *o, const uint8_t key[16], uint8_t *out,
                                size_t m, uint64_t *logs, size_t l, uint8_t *marks, size_t k);
EdgeSstTold plain_sums(const uint8_t *p, size_t n);                /* rule 22 alone, of a file that opens */
EdgeSstTold plain_edges(const uint8_t *p, const EdgeSstOpened *o); /* the groups and rule 23, of such a file */
EdgeSstTold plain_check(const uint8_t *p, size_t n);
/* The lower halves of dense partners are read only where the upper ones are equal. */
EdgeSstTold sparing_check(const uint8_t *p, size_t n);
EdgeSstSummary plain_summary(const uint8_t *p, size_t n);
EdgeSstDone plain_needed(const uint8_t *p, size_t n);
EdgeSstDone plain_write(const uint8_t *p, size_t n, uint8_t *out, size_t m);
EdgeSstDone plain_read_out(const uint8_t *p, size_t n, uint8_t *out, size_t m);

#endif
