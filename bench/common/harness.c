/* The program of every benchmark.
 *
 *   harness rows                    print the rows: name, calls, bar
 *   harness count ROW WHICH CALLS   call WHICH so often: ours, plain or empty
 *   harness time ROW                print the nanoseconds of a call of ours and of plain C
 *   harness compare                 hold ours to plain C
 *
 * Every call goes through the same pointer in the same loop. */
#include <stdarg.h>
#include <stdio.h>
#include <stdlib.h>
#include <string.h>
#include <time.h>

#include "format.h"
#include "harness.h"

enum { RUNS = 7 };
static const double LEAST = 20e6; /* nanoseconds of a run that is timed */

void stop(int status, const char *format, ...) {
    va_list list;
    fputs("harness: ", stderr);
    va_start(list, format);
    vfprintf(stderr, format, list);
    va_end(list);
    fputc('\n', stderr);
    exit(status);
}

bytes memory(size_t size) {
    bytes b = {aligned_alloc(64, (size / 64 + 1) * 64), size};
    if (b.bytes == NULL)
        stop(2, "no memory");
    return b;
}

void family(bytes b) {
    uint32_t x = 1;
    for (size_t i = 0; i < b.size; i++) {
        x = (x * 1103515245u + 12345u) & 0x7FFFFFFFu;
        b.bytes[i] = (uint8_t)(x >> 16);
    }
}

bytes read_all(const char *path) {
    FILE *f = fopen(path, "rb");
    if (f == NULL || fseek(f, 0, SEEK_END) != 0)
        stop(2, "cannot read %s", path);
    bytes b = memory((size_t)ftell(f));
    rewind(f);
    if (fread(b.bytes, 1, b.size, f) != b.size)
        stop(2, "cannot read %s", path);
    fclose(f);
    return b;
}

int next_entry(bytes *corpus, char name[256], bytes *out) {
    if (corpus->size == 0)
        return 0;
    size_t n = corpus->bytes[0], head = 5 + n;
    if (corpus->size < head || corpus->size - head < le32(corpus->bytes + 1 + n))
        stop(2, "the corpus is cut");
    memcpy(name, corpus->bytes + 1, n);
    name[n] = 0;
    *out = (bytes){corpus->bytes + head, le32(corpus->bytes + 1 + n)};
    corpus->bytes += head + out->size;
    corpus->size -= head + out->size;
    return 1;
}

bytes entry(const char *path, const char *wanted) {
    bytes corpus = read_all(path), f;
    char name[256];
    while (next_entry(&corpus, name, &f))
        if (strcmp(name, wanted) == 0)
            return f;
    stop(2, "no file '%s' in %s", wanted, path);
}

void print_told(const uint64_t told[NUMBERS]) {
    for (int i = 0; i < NUMBERS; i++)
        if (told[i] != 0)
            printf(" %d:%llu", i, (unsigned long long)told[i]);
    printf(".\n");
}

__attribute__((noinline)) static void calls(function *f, uint64_t count) {
    uint64_t last = 0;
    for (uint64_t i = 0; i < count; i++)
        last = call(f, last);
}

static const row *named(const char *name) {
    for (const row *r = rows; r->name != NULL; r++)
        if (strcmp(name, r->name) == 0)
            return r;
    stop(2, "no row '%s'", name);
}

static int print_rows(void) {
    for (const row *r = rows; r->name != NULL; r++)
        printf("%s %llu %g\n", r->name, (unsigned long long)r->calls, r->bar);
    return 0;
}

static int count(const row *r, const char *which, uint64_t number) {
    prepare(r);
    calls(strcmp(which, "ours") == 0 ? ours : strcmp(which, "plain") == 0 ? r->plain : empty, number);
    return 0;
}

/* The nanoseconds of the processor's time that so many calls take. */
static double spent(function *f, uint64_t count) {
    struct timespec a, b;
    clock_gettime(CLOCK_PROCESS_CPUTIME_ID, &a);
    calls(f, count);
    clock_gettime(CLOCK_PROCESS_CPUTIME_ID, &b);
    return (double)(b.tv_sec - a.tv_sec) * 1e9 + (double)(b.tv_nsec - a.tv_nsec);
}

/* The least of RUNS runs of each, in turns, so that a slow moment of the machine
 * does not fall on one of them alone. */
static int time_row(const row *r) {
    uint64_t count = 1;
    prepare(r);
    while (spent(r->plain, count) < LEAST)
        count *= 2;
    double least[2] = {spent(ours, count), spent(r->plain, count)};
    for (int run = 1; run < RUNS; run++)
        for (int i = 0; i < 2; i++) {
            double taken = spent(i == 0 ? ours : r->plain, count);
            if (taken < least[i])
                least[i] = taken;
        }
    return printf("%.2f %.2f\n", least[0] / (double)count, least[1] / (double)count) < 0;
}

int main(int argc, char **argv) {
    if (argc == 2 && strcmp(argv[1], "rows") == 0)
        return print_rows();
    if (argc == 5 && strcmp(argv[1], "count") == 0)
        return count(named(argv[2]), argv[3], strtoull(argv[4], NULL, 10));
    if (argc == 3 && strcmp(argv[1], "time") == 0)
        return time_row(named(argv[2]));
    if (argc == 2 && strcmp(argv[1], "compare") == 0) {
        compare();
        return 0;
    }
    stop(2, "see the head of harness.c");
}
