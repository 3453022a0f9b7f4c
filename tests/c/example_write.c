/* Makes a batch of one edge and writes its file: a small example of the calls for C.
 *
 *   example_write OUT
 *
 * It writes the bytes of samples/example.edges. Exit status: 0 written; 1 refused;
 * 2 usage or output.
 *
 *   cc -Iinclude tests/c/example_write.c target/staticlib/libedge_sst_c.a -o example_write
 *   ./example_write one.edges */
#include <stdio.h>
#include <stdlib.h>
#include <string.h>

#include "edge_sst.h"

/* A key or partner by its two halves: the highest byte comes first. */
static void put_id(uint8_t *at, uint64_t upper, uint64_t lower) {
    int i;
    for (i = 0; i < 8; i++) {
        at[i] = (uint8_t)(upper >> (56 - 8 * i));
        at[8 + i] = (uint8_t)(lower >> (56 - 8 * i));
    }
}

/* The first record of a batch: direction, edge type, source and destination label. */
static uint8_t *put_heading(uint8_t *at, int inverse) {
    at[0] = EDGE_SST_BATCH_HEADING;
    at[1] = inverse ? 1 : 0;
    memset(at + 2, 0x11, 16);
    memset(at + 18, 0x22, 16);
    memset(at + 34, 0x33, 16);
    return at + EDGE_SST_HEADING_BYTES;
}

/* An edge of key (k, l) and partner (p, q). A log number has its lowest byte first. */
static uint8_t *put_edge(uint8_t *at, uint64_t k, uint64_t l, uint64_t p, uint64_t q, uint64_t log, int dead) {
    int i;
    at[0] = dead ? EDGE_SST_BATCH_DEAD : EDGE_SST_BATCH_LIVE;
    put_id(at + 1, k, l);
    put_id(at + 17, p, q);
    for (i = 0; i < 8; i++)
        at[33 + i] = (uint8_t)(log >> (8 * i));
    return at + EDGE_SST_EDGE_BYTES;
}

static int refused(EdgeSstDone done) {
    fprintf(stderr, "refused %llu at %llu: %s\n", (unsigned long long)done.number,
            (unsigned long long)done.place, edge_sst_text(done.number));
    return 1;
}

static int save(const char *path, const uint8_t *bytes, size_t n) {
    FILE *f = fopen(path, "wb");
    if (f == NULL || fwrite(bytes, 1, n, f) != n || fclose(f) != 0) {
        perror(path);
        return 2;
    }
    printf("%lu bytes\n", (unsigned long)n);
    return 0;
}

int main(int argc, char **argv) {
    uint8_t batch[EDGE_SST_HEADING_BYTES + 1 * EDGE_SST_EDGE_BYTES], *end, *file;
    EdgeSstDone done;
    int status;
    if (argc != 2) {
        fputs("usage: example_write OUT\n", stderr);
        return 2;
    }
    end = put_heading(batch, 0);
    /* Further edges would follow in rising order, by key, then partner. */
    end = put_edge(end, 1, 2, 5, 1, 7, 0);

    /* Ask for the size, lend that much, write. */
    done = edge_sst_needed(batch, (size_t)(end - batch));
    if (done.number != 0)
        return refused(done);
    file = malloc(done.bytes);
    if (file == NULL)
        return 2;
    done = edge_sst_write(batch, (size_t)(end - batch), file, done.bytes);
    status = done.number != 0 ? refused(done) : save(argv[1], file, done.bytes);
    free(file);
    return status;
}
