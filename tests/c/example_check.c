/* Checks files in full: a small example of the calls for C.
 *
 *   example_check FILE...      a line for each: fine, or the first refusal
 *
 * Exit status: 0 all fine; 1 one is refused; 2 usage or input.
 *
 *   cc -Iinclude tests/c/example_check.c target/staticlib/libedge_sst_c.a -o example_check
 *   ./example_check samples/board.edges */
#include <stdio.h>
#include <stdlib.h>

#include "edge_sst.h"
#include "read_file.h"

int main(int argc, char **argv) {
    int i, status = 0;
    if (argc < 2) {
        fputs("usage: example_check FILE...\n", stderr);
        return 2;
    }
    for (i = 1; i < argc; i++) {
        size_t n;
        uint8_t *bytes = read_file(argv[i], &n);
        EdgeSstTold told = edge_sst_check(bytes, n);
        if (told.number == 0) {
            printf("%s: fine\n", argv[i]);
        } else {
            printf("%s: refused %llu at ", argv[i], (unsigned long long)told.number);
            if (edge_sst_has_beside(told.number))
                printf("group %llu, byte ", (unsigned long long)told.beside);
            printf("%llu: %s\n", (unsigned long long)told.place, edge_sst_text(told.number));
            status = 1;
        }
        free(bytes);
    }
    return status;
}
