/* What the examples share: the bytes of a file. */
#ifndef READ_FILE_H
#define READ_FILE_H

#include <stdint.h>
#include <stdio.h>
#include <stdlib.h>

/* All bytes of the file; to be freed. Never null, also for an empty file: the calls ask
 * for that. Ends the program with status 2 where the file cannot be read. */
static uint8_t *read_file(const char *path, size_t *n) {
    FILE *f = fopen(path, "rb");
    uint8_t *bytes;
    long size;
    if (f == NULL || fseek(f, 0, SEEK_END) != 0 || (size = ftell(f)) < 0) {
        perror(path);
        exit(2);
    }
    rewind(f);
    bytes = malloc((size_t)size + 1);
    if (bytes == NULL || (*n = fread(bytes, 1, (size_t)size, f)) != (size_t)size) {
        fprintf(stderr, "cannot read %s\n", path);
        exit(2);
    }
    fclose(f);
    return bytes;
}

#endif
