/* Sums of known bytes, at once. */
#include <inttypes.h>
#include <stdlib.h>

#include "sums.h"

uint64_t whole_sum(const char *name, Lent lent) {
    hold_guards(name, "output", lent);
    return at_once(lent.bytes, lent.n);
}

void test_sums(const char *dir) {
    enum { MOST = 65536 };
    Lines lines = lines_of(dir, "test_xxh3/stdout");
    char line[LINE];
    uint8_t *bytes = family(MOST);
    while (next_line(&lines, line)) {
        size_t n = (size_t)strtoull(line, NULL, 10);
        hold_line("sum", line, "%lu %016" PRIx64, (unsigned long)n, at_once(bytes, n <= MOST ? n : 0));
    }
    free(bytes);
}
