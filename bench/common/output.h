/* What writing and reading out have in common: bytes are made of bytes. */
#ifndef OUTPUT_H
#define OUTPUT_H

#include "harness.h"
#include "plain.h"

typedef EdgeSstDone maker(const uint8_t *p, size_t n, uint8_t *out, size_t m);

/* Holds plain C to ours: the answer, every byte of the output and some beyond it,
 * without room, with one byte less than needed, with more, and with what is needed. */
EdgeSstDone same(const char *name, maker *plain, bytes in);

#endif
