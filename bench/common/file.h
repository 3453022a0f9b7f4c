/* Makes files to be read. */
#ifndef FILE_H
#define FILE_H

#include "harness.h"

/* The keys and groups of a file that is to be made. */
typedef struct {
    uint64_t keys, edges;
    uint8_t *key, *partners; /* 16 bytes each; the groups */
    uint32_t *offset;        /* where each group begins, and where the last one ends */
    uint32_t *start;         /* the edges before each group, and all of them */
    int dense;               /* a group is dense */
    int dead;                /* there are tombstones: the last edge alone is dead */
    int fenced;              /* there are fences, also where they need not be */
    int wide;                /* offsets have 32 bits, also where 24 would do */
    int starts;              /* there is a start index, and minor 1; else neither, also where the writer makes them */
    size_t stream;           /* the bytes of a property stream without a name, the groups again and again; 0: none */
} content;

/* Nothing yet, and room for so many keys and bytes of groups. */
content room_for(uint64_t keys, size_t partners);

/* Adds a key by its halves, and its group. The partners' upper halves rise by 2^49
 * and more if it is dense, which is how a writer comes to choose that; by 1 to 200,
 * one byte or two, if it is split. Their lower halves are of no order. */
void add(content *c, uint64_t high, uint64_t low, uint64_t degree, int dense, uint64_t *seed);

/* The file: what is not said above is as the writer's rules choose it. */
bytes file_of(const content *c);
size_t size_of(const content *c);

/* A small file: keys of 1 to 9 partners, every third one dense; one edge is dead. */
bytes mixed_file(int starts);

/* Copies f to g with one byte changed: any, or one time of sixteen the flags. Three
 * times of four all sums are then put right, or that of the footer if the byte is in it. */
void change_byte(bytes f, bytes g, uint64_t i, uint64_t seed);

#endif
