/* How much stack each call takes: a thread's stack is painted, the call runs on it,
 * and the deepest byte that is no longer paint tells. A thread that calls nothing is
 * taken off; what is left also holds the caller's own frame with the answer in it.
 *
 *   stack FILE...      prints a line for each call, the most over all FILEs
 *
 * Each call runs once beforehand, so that no symbol is resolved on the painted stack. */
#define _POSIX_C_SOURCE 200809L
#include <pthread.h>
#include <stdio.h>
#include <stdlib.h>
#include <string.h>

#include "../../include/edge_sst.h"

enum { STACK = 1 << 18, ROOM = 1 << 20, PAINT = 0xA5 };

static uint8_t file[ROOM], batch[ROOM], out[ROOM], key[EDGE_SST_KEY_BYTES], marks[4096];
static uint64_t logs[4096];
static size_t file_bytes, batch_bytes;
static EdgeSstOpened record;
static EdgeSstRunning running;
static volatile uint64_t told;

static void nothing(void) { told = 0; }
static void open_file(void) { told = edge_sst_open(file, file_bytes).number; }
static void header(void) { told = edge_sst_header(file, file_bytes).number; }
static void sections(void) {
    EdgeSstRow *rows = (EdgeSstRow *)(void *)logs;
    told = edge_sst_list(file, file_bytes, rows, EDGE_SST_MOST_SECTIONS).number;
}
static void partners(void) { told = edge_sst_partners(file, file_bytes, key, out, ROOM).number; }
static void partners_with(void) {
    told = edge_sst_partners_with(file, file_bytes, &record, key, out, ROOM).number;
}
static void lookup(void) {
    told = edge_sst_lookup(file, file_bytes, key, out, ROOM, logs, 4096, marks, 4096).number;
}
static void lookup_with(void) {
    told = edge_sst_lookup_with(file, file_bytes, &record, key, out, ROOM, logs, 4096, marks, 4096).number;
}
static void check(void) { told = edge_sst_check(file, file_bytes).number; }
static void read_out(void) { told = edge_sst_read_out(file, file_bytes, out, ROOM).number; }
static void summary(void) { told = edge_sst_summary(file, file_bytes).number; }
static void needed(void) { told = edge_sst_needed(batch, batch_bytes).number; }
static void write_file(void) { told = edge_sst_write(batch, batch_bytes, out, ROOM).number; }
static void sum(void) { told = edge_sst_sum(file, file_bytes); }
static void running_new(void) { running = edge_sst_running_new(); }
static void running_feed(void) { told = edge_sst_running_update(&running, file, file_bytes).number; }
static void running_asked(void) { told = edge_sst_running_sum(&running); }

static struct {
    const char *name;
    void (*go)(void);
    size_t most;
} calls[] = {
    {"nothing", nothing, 0},
    {"edge_sst_open", open_file, 0},
    {"edge_sst_header", header, 0},
    {"edge_sst_sections", sections, 0},
    {"edge_sst_partners", partners, 0},
    {"edge_sst_partners_with", partners_with, 0},
    {"edge_sst_lookup", lookup, 0},
    {"edge_sst_lookup_with", lookup_with, 0},
    {"edge_sst_check", check, 0},
    {"edge_sst_read_out", read_out, 0},
    {"edge_sst_summary", summary, 0},
    {"edge_sst_needed", needed, 0},
    {"edge_sst_write", write_file, 0},
    {"edge_sst_sum", sum, 0},
    {"edge_sst_running_new", running_new, 0},
    {"edge_sst_running_feed", running_feed, 0},
    {"edge_sst_running_asked", running_asked, 0},
};
enum { CALLS = sizeof calls / sizeof calls[0] };

static void fail(const char *what) {
    fprintf(stderr, "stack: %s\n", what);
    exit(2);
}

static void *run(void *i) {
    calls[*(size_t *)i].go();
    return NULL;
}

static size_t depth(uint8_t *stack, size_t i) {
    pthread_attr_t attributes;
    pthread_t thread;
    size_t free_bytes = 0;
    memset(stack, PAINT, STACK);
    if (pthread_attr_init(&attributes) != 0 || pthread_attr_setstack(&attributes, stack, STACK) != 0 ||
        pthread_create(&thread, &attributes, run, &i) != 0 || pthread_join(thread, NULL) != 0)
        fail("no thread");
    pthread_attr_destroy(&attributes);
    while (free_bytes < STACK && stack[free_bytes] == PAINT)
        free_bytes++;
    return STACK - free_bytes;
}

/* The file, its batch, its record and its first key. */
static void load(const char *path) {
    FILE *f = fopen(path, "rb");
    if (f == NULL)
        fail("cannot open a file");
    file_bytes = fread(file, 1, ROOM, f);
    fclose(f);
    record = edge_sst_open(file, file_bytes);
    batch_bytes = (size_t)edge_sst_read_out(file, file_bytes, batch, ROOM).bytes;
    if (batch_bytes < EDGE_SST_HEADING_BYTES + EDGE_SST_EDGE_BYTES)
        fail("a file that passes and has edges is wanted");
    memcpy(key, file + record.keystart, sizeof key);
}

int main(int argc, char **argv) {
    void *stack;
    size_t i;
    int a;
    if (posix_memalign(&stack, 4096, STACK) != 0)
        fail("no memory");
    for (a = 1; a < argc; a++) {
        load(argv[a]);
        for (i = 0; i < CALLS; i++) {
            size_t deep;
            calls[i].go();
            deep = depth(stack, i);
            if (calls[i].most < deep)
                calls[i].most = deep;
        }
    }
    for (i = 1; i < CALLS; i++)
        printf("%s %lu\n", calls[i].name, (unsigned long)(calls[i].most - calls[0].most));
    free(stack);
    return 0;
}
