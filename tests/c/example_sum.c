/* Sums the sections of a file as they come down in chunks, two at a time: a small example
 * of the calls for C.
 *
 *   example_sum FILE      a line for each section, at its end: fine, or both sums
 *
 * FILE stands for the other end of the line. Exit status: 0 all fine; 1 a section has
 * another sum than the table says, or a refusal; 2 usage or input.
 *
 *   cc -Iinclude tests/c/example_sum.c target/staticlib/libedge_sst_c.a -o example_sum
 *   ./example_sum samples/board.edges */
#include <stdio.h>
#include <stdlib.h>

#include "edge_sst.h"
#include "read_file.h"

enum { CHUNK = 100, AT_ONCE = 2 };

/* A section that comes down: its row of the table, null where none does, and the sum of
 * what came so far. */
typedef struct {
    const EdgeSstRow *row;
    EdgeSstRunning sum;
} Download;

static int refused(uint64_t number, uint64_t place) {
    fprintf(stderr, "refused %llu at %llu: %s\n", (unsigned long long)number, (unsigned long long)place,
            edge_sst_text(number));
    return 1;
}

static void begin(Download *d, const EdgeSstRow *row) {
    d->row = row;
    d->sum = edge_sst_running_new();
}

/* The next chunk is summed, and need not be kept. The state counts what came. */
static EdgeSstTold take_chunk(Download *d, const uint8_t *file) {
    uint64_t left = d->row->len - d->sum.total;
    const uint8_t *chunk = file + d->row->start + d->sum.total;
    return edge_sst_running_update(&d->sum, chunk, left < CHUNK ? (size_t)left : CHUNK);
}

/* The sum of a section that is whole against the table's. */
static int tell(uint64_t entry, const Download *d) {
    uint64_t sum = edge_sst_running_sum(&d->sum);
    printf("entry %llu: %llu bytes, ", (unsigned long long)entry, (unsigned long long)d->sum.total);
    if (sum == d->row->sum) {
        puts("fine");
        return 0;
    }
    printf("%016llx where the table says %016llx\n", (unsigned long long)sum, (unsigned long long)d->row->sum);
    return 1;
}

/* Those that are open get a chunk in turns; where one ends the next section begins. */
static int download(const uint8_t *file, const EdgeSstRow *rows, uint64_t count) {
    Download open[AT_ONCE] = {{0}};
    uint64_t begun = 0, done = 0;
    int i, status = 0;
    for (i = 0; done < count; i = (i + 1) % AT_ONCE) {
        Download *d = &open[i];
        EdgeSstTold told;
        if (d->row == NULL && begun < count)
            begin(d, &rows[begun++]);
        if (d->row == NULL)
            continue;
        told = take_chunk(d, file);
        if (told.number != 0)
            return refused(told.number, told.place);
        if (d->sum.total == d->row->len) {
            status |= tell((uint64_t)(d->row - rows), d);
            d->row = NULL;
            done++;
        }
    }
    return status;
}

int main(int argc, char **argv) {
    size_t n;
    int status;
    uint8_t *bytes;
    EdgeSstRow rows[EDGE_SST_MOST_SECTIONS];
    EdgeSstListed listed;
    if (argc != 2) {
        fputs("usage: example_sum FILE\n", stderr);
        return 2;
    }
    bytes = read_file(argv[1], &n);
    listed = edge_sst_list(bytes, n, rows, EDGE_SST_MOST_SECTIONS);
    if (listed.number != 0)
        return refused(listed.number, listed.place);
    status = download(bytes, rows, listed.rows);
    free(bytes);
    return status;
}
