#include "output.h"

#include <stdlib.h>
#include <string.h>

enum { BEYOND = 64 };

static EdgeSstDone same_in(const char *name, maker *plain, bytes in, size_t room) {
    bytes a = memory(room + BEYOND), b = memory(room + BEYOND);
    memset(a.bytes, 0xAA, a.size);
    memset(b.bytes, 0xAA, b.size);
    EdgeSstDone x = ((maker *)ours)(in.bytes, in.size, a.bytes, room), y = plain(in.bytes, in.size, b.bytes, room);
    if (memcmp(&x, &y, sizeof x) != 0 || memcmp(a.bytes, b.bytes, a.size) != 0)
        stop(1, "the answers differ on '%s': %llu and %llu", name, (unsigned long long)x.number,
             (unsigned long long)y.number);
    free(a.bytes);
    free(b.bytes);
    return x;
}

EdgeSstDone same(const char *name, maker *plain, bytes in) {
    EdgeSstDone done = same_in(name, plain, in, 0);
    if (done.number != EDGE_SST_ROOM)
        return done;
    same_in(name, plain, in, done.place - 1);
    same_in(name, plain, in, done.place + 99);
    return same_in(name, plain, in, done.place);
}
