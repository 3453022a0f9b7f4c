/* Prints the partners of one part: a small example of the calls for C.
 *
 *   example FILE KEY      KEY is 32 hexadecimal digits
 *
 * Exit status: 0 answered, absence too; 1 refused; 2 usage or input.
 *
 *   cc -Iinclude tests/c/example.c target/staticlib/libedge_sst_c.a -o example
 *   ./example samples/board.edges 018f6e2a7c1070000000000000000001 */
#include <stdio.h>
#include <stdlib.h>
#include <string.h>

#include "edge_sst.h"
#include "read_file.h"

/* A refusal is a number and a place; the header has a text for each number. Of a group's
 * fault the place is a byte in the group, and the group is told beside it. */
static int refused(uint64_t number, uint64_t place, uint64_t beside) {
    fprintf(stderr, "refused %llu at ", (unsigned long long)number);
    if (edge_sst_has_beside(number))
        fprintf(stderr, "group %llu, byte ", (unsigned long long)beside);
    fprintf(stderr, "%llu: %s\n", (unsigned long long)place, edge_sst_text(number));
    return 1;
}

static int digit(char c) {
    if ('0' <= c && c <= '9')
        return c - '0';
    if ('a' <= c && c <= 'f')
        return c - 'a' + 10;
    if ('A' <= c && c <= 'F')
        return c - 'A' + 10;
    return -1;
}

/* The key of exactly 32 hexadecimal digits; 0 where it is none. */
static int read_key(const char *hex, uint8_t key[EDGE_SST_KEY_BYTES]) {
    int i;
    if (strlen(hex) != 2 * EDGE_SST_KEY_BYTES)
        return 0;
    for (i = 0; i < EDGE_SST_KEY_BYTES; i++) {
        int high = digit(hex[2 * i]), low = digit(hex[2 * i + 1]);
        if (high < 0 || low < 0)
            return 0;
        key[i] = (uint8_t)(16 * high + low);
    }
    return 1;
}

/* Looks the key up with no room: refusal 20 tells how many partners there are. */
static EdgeSstLooked look(const uint8_t *p, size_t n, const EdgeSstOpened *o, const uint8_t key[EDGE_SST_KEY_BYTES],
                          uint8_t **out) {
    uint8_t none[1];
    EdgeSstLooked l = edge_sst_partners_with(p, n, o, key, none, 0);
    *out = NULL;
    if (l.number != EDGE_SST_ROOM)
        return l;
    *out = malloc(EDGE_SST_KEY_BYTES * l.place);
    if (*out == NULL)
        exit(2);
    return edge_sst_partners_with(p, n, o, key, *out, EDGE_SST_KEY_BYTES * l.place);
}

static void print_id(const uint8_t *id) {
    int i;
    for (i = 0; i < EDGE_SST_KEY_BYTES; i++)
        printf("%02x", id[i]);
    putchar('\n');
}

int main(int argc, char **argv) {
    size_t n;
    uint64_t i;
    uint8_t key[EDGE_SST_KEY_BYTES], *bytes, *partners;
    EdgeSstOpened o;
    EdgeSstLooked l;
    if (argc != 3 || !read_key(argv[2], key)) {
        fputs("usage: example FILE KEY, where KEY is 32 hexadecimal digits\n", stderr);
        return 2;
    }
    bytes = read_file(argv[1], &n);

    /* Open once; the record serves any number of lookups in these bytes. */
    o = edge_sst_open(bytes, n);
    if (o.number != 0)
        return refused(o.number, o.place, o.beside);
    l = look(bytes, n, &o, key, &partners);
    if (l.number != 0)
        return refused(l.number, l.place, l.beside);
    if (!l.found)
        puts("absent");
    for (i = 0; l.found && i < l.degree; i++)
        print_id(partners + EDGE_SST_KEY_BYTES * i);
    free(partners);
    free(bytes);
    return 0;
}
