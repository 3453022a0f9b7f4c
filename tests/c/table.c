/* The section table of a file, as its bytes lie, and files changed in it. */
#include <string.h>

#include "test.h"

enum { TRAILER = 20, TABLE_HEAD = 2, ENTRY = 28 };

uint64_t number_at(const uint8_t *p, size_t n) {
    Bytes at;
    at.p = p;
    at.n = n;
    return take_number(&at, n);
}

void put_number(uint8_t *p, uint64_t number, size_t n) {
    size_t i;
    for (i = 0; i < n; i++)
        p[i] = (uint8_t)(number >> 8 * i);
}

Bytes find_file(const char *dir, const char *name) {
    Bytes input = read_all(dir, "test_open/stdin");
    char found[256];
    for (;;) {
        Bytes item;
        take_name(&input, found);
        item = take_item(&input);
        if (strcmp(found, name) == 0)
            return item;
        give_back(item);
    }
}

size_t footer_of(Bytes file) { return file.n - (size_t)number_at(file.p + file.n - 12, 4); }

size_t entries_of(Bytes file) { return (size_t)number_at(file.p + footer_of(file), TABLE_HEAD); }

size_t entry_of(Bytes file, size_t entry) {
    size_t at = footer_of(file) + TABLE_HEAD;
    while (entry-- > 0)
        at += ENTRY + file.p[at + 3];
    return at;
}

EdgeSstRow row_of(Bytes file, size_t entry) {
    size_t at = entry_of(file, entry);
    const uint8_t *p = file.p + at;
    EdgeSstRow row;
    row.kind = number_at(p, 2);
    row.codec = p[2];
    row.nameat = at + ENTRY;
    row.namelen = p[3];
    row.start = number_at(p + 4, 8);
    row.len = number_at(p + 12, 8);
    row.sum = number_at(p + 20, 8);
    return row;
}

void mend_section(uint8_t *p, size_t n, size_t entry) {
    Bytes file;
    EdgeSstRow row;
    file.p = p;
    file.n = n;
    row = row_of(file, entry);
    put_number(p + entry_of(file, entry) + 20, edge_sst_sum(p + row.start, (size_t)row.len), 8);
    calls++;
    mend_footer(p, n);
}

void mend_footer(uint8_t *p, size_t n) {
    Bytes file;
    size_t footer, end = n - TRAILER;
    file.p = p;
    file.n = n;
    footer = footer_of(file);
    put_number(p + end, edge_sst_sum(p + footer, end - footer), 8);
    calls++;
}
