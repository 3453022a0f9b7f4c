/* What the two parts of the test of the start index share. */
#ifndef STARTS_H
#define STARTS_H

#include "test.h"

enum { MOST_DEGREE = 512 };

/* A key, and what partners alone say of it by the record without an index. */
typedef struct {
    uint8_t key[ID];
    EdgeSstLooked told;
    uint8_t partners[ID * MOST_DEGREE];
} Sought;

/* The key of the group with this index; a key of zeros where there is no such group, which
 * is to be absent. */
Sought seek(const char *name, Bytes file, const EdgeSstOpened *o, uint64_t group);

/* Room for one partner more than the key has. */
size_t room_of(const Sought *s);

/* Both lookups by this record, against the model. */
void hold_both(const char *name, Bytes file, const EdgeSstOpened *o, const Sought *s);

/* How many edges come before this group, by the degrees. */
uint64_t edges_before(Bytes file, const EdgeSstOpened *o, uint64_t group);

/* Files whose index is changed under mended sums: 37, 23, 22 and 19. */
void test_changed_starts(const char *dir);

/* The writer: an index from 1,025 keys on. */
void test_written_starts(void);

#endif
