/* Holds the archive's calls, as C sees them, to the corpora of the second program: all
 * of libedge_sst_c.a, or where ALONE is defined those of libxxh3.a.
 *
 *   test CRATES
 *
 * CRATES is the folder that holds the corpora. Prints 'N calls, D differences';
 * status 1 where D is not 0, status 2 where the input cannot be read. */
#include <stdio.h>

#include "test.h"

typedef struct {
    const char *name;
    void (*test)(const char *dir);
} Part;

static const Part parts[] = {
    {"sums", test_sums},
    {"running sums", test_running},
#ifndef ALONE
    {"opening and records", test_opening},
    {"kinds", test_kinds},
    {"start index", test_starts},
    {"lookups and keys", test_lookups},
    {"groups", test_groups},
    {"checks", test_checks},
    {"writing", test_writes},
    {"summaries", test_summaries},
#endif
};

int main(int argc, char **argv) {
    size_t i;
    if (argc != 2) {
        fputs("test: see the head of main.c\n", stderr);
        return 2;
    }
    for (i = 0; i < sizeof parts / sizeof parts[0]; i++) {
        unsigned long long before = calls;
        parts[i].test(argv[1]);
        printf("%s: %llu calls\n", parts[i].name, calls - before);
    }
    printf("%llu calls, %llu differences\n", calls, differences);
    return differences != 0;
}
