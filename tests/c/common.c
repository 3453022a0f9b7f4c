/* Counts, inputs, expected lines and lent outputs. */
#include <stdarg.h>
#include <stdio.h>
#include <stdlib.h>
#include <string.h>

#include "test.h"

unsigned long long calls, differences;

enum { PRINTED = 20, GUARD_BYTE = 0x5C };

void differ(const char *format, ...) {
    va_list list;
    if (differences++ >= PRINTED)
        return;
    va_start(list, format);
    vfprintf(stderr, format, list);
    va_end(list);
    fputc('\n', stderr);
}

static void stop(const char *what, const char *name) {
    fprintf(stderr, "test: %s %s\n", what, name);
    exit(2);
}

void *memory(size_t n) {
    void *p = malloc(n > 0 ? n : 1);
    if (p == NULL)
        stop("no memory", "");
    return p;
}

Bytes read_all(const char *dir, const char *name) {
    char path[LINE];
    FILE *f;
    long n = -1;
    uint8_t *p;
    Bytes all;
    snprintf(path, sizeof path, "%s/%s", dir, name);
    f = fopen(path, "rb");
    if (f == NULL || fseek(f, 0, SEEK_END) != 0 || (n = ftell(f)) < 0)
        stop("cannot read", path);
    rewind(f);
    p = memory((size_t)n + 1);
    if (fread(p, 1, (size_t)n, f) != (size_t)n)
        stop("cannot read", path);
    fclose(f);
    p[n] = 0;
    all.p = p;
    all.n = (size_t)n;
    return all;
}

Bytes take(Bytes *from, size_t n) {
    Bytes part;
    if (from->n < n)
        stop("the input is cut", "");
    part.p = from->p;
    part.n = n;
    from->p += n;
    from->n -= n;
    return part;
}

uint64_t take_number(Bytes *from, size_t n) {
    Bytes part = take(from, n);
    uint64_t x = 0;
    while (n-- > 0)
        x = x << 8 | part.p[n];
    return x;
}

void take_name(Bytes *from, char name[256]) {
    Bytes part = take(from, (size_t)take_number(from, 1));
    memcpy(name, part.p, part.n);
    name[part.n] = 0;
}

Bytes take_item(Bytes *from) {
    Bytes part = take(from, (size_t)take_number(from, 4));
    uint8_t *copy = memory(part.n);
    memcpy(copy, part.p, part.n);
    part.p = copy;
    return part;
}

void give_back(Bytes item) { free((void *)item.p); }

Lines lines_of(const char *dir, const char *name) {
    Lines lines;
    lines.at = (const char *)read_all(dir, name).p;
    return lines;
}

int next_line(Lines *lines, char line[LINE]) {
    size_t n = strcspn(lines->at, "\n");
    if (*lines->at == 0)
        return 0;
    if (n >= LINE)
        stop("a line is too long", "");
    memcpy(line, lines->at, n);
    line[n] = 0;
    lines->at += n + (lines->at[n] == '\n');
    return 1;
}

int peek_detail(const Lines *lines) { return strncmp(lines->at, "  ", 2) == 0; }

const char *line_for(Lines *lines, const char *name, char line[LINE]) {
    size_t n = strlen(name);
    if (!next_line(lines, line))
        stop("no expected line for", name);
    if (strncmp(line, name, n) == 0 && strncmp(line + n, ": ", 2) == 0)
        return line + n + 2;
    differ("%s: the expected line is of another: %s", name, line);
    return "";
}

void hold_line(const char *name, const char *expected, const char *format, ...) {
    char got[LINE];
    va_list list;
    va_start(list, format);
    vsnprintf(got, sizeof got, format, list);
    va_end(list);
    if (strcmp(got, expected) != 0)
        differ("%s: got '%s', expected '%s'", name, got, expected);
}

uint8_t *family(size_t n) {
    uint8_t *bytes = memory(n);
    uint64_t x = 1;
    size_t i;
    for (i = 0; i < n; i++) {
        x = (x * 1103515245 + 12345) % ((uint64_t)1 << 31);
        bytes[i] = (uint8_t)(x / 65536);
    }
    return bytes;
}

/* Byte i of an output before a call. */
static uint8_t filled(Fill fill, size_t i) {
    switch (fill) {
    case AS_BYTES:
        return (uint8_t)(7 * i + 3);
    case AS_NUMBERS: {
        uint64_t x = 1000003 * (uint64_t)(i / 8) + 11;
        return ((uint8_t *)&x)[i % 8];
    }
    default:
        return 0xAA;
    }
}

Lent lend(size_t n, Fill fill) {
    Lent lent;
    size_t i;
    uint8_t *all = memory(n + 2 * GUARD);
    memset(all, GUARD_BYTE, GUARD);
    memset(all + GUARD + n, GUARD_BYTE, GUARD);
    lent.bytes = all + GUARD;
    lent.n = n;
    for (i = 0; i < n; i++)
        lent.bytes[i] = filled(fill, i);
    return lent;
}

void take_back(Lent lent) { free(lent.bytes - GUARD); }

void hold_guards(const char *name, const char *what, Lent lent) {
    size_t i;
    for (i = 0; i < GUARD; i++)
        if (lent.bytes[lent.n + i] != GUARD_BYTE || lent.bytes[i - GUARD] != GUARD_BYTE) {
            differ("%s: a byte beside the %s was written", name, what);
            return;
        }
}

void hold_output(const char *name, const char *what, Lent lent, Fill fill, const uint8_t *answer, size_t n) {
    size_t i;
    hold_guards(name, what, lent);
    if (answer == NULL)
        n = 0;
    if (n > lent.n) {
        differ("%s: %lu bytes of %s in %lu", name, (unsigned long)n, what, (unsigned long)lent.n);
        return;
    }
    for (i = 0; i < lent.n; i++)
        if (lent.bytes[i] != (i < n ? answer[i] : filled(fill, i))) {
            differ("%s: byte %lu of the %s", name, (unsigned long)i, what);
            return;
        }
}
