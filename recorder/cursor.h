// Reads numbers from bytes that may end anywhere: past the end everything is 0, and `bad` is set.
#ifndef MACHHUREL_CURSOR_H
#define MACHHUREL_CURSOR_H
#include <stddef.h>
#include <stdint.h>
#include <string.h>

typedef struct {
    const uint8_t *p, *end;
    int bad;
} Cursor;

static inline uint64_t take(Cursor *c, size_t bytes) {
    uint64_t v = 0;
    if (bytes > 8 || (size_t)(c->end - c->p) < bytes) {
        c->bad = 1;
        c->p = c->end;
        return 0;
    }
    for (size_t i = 0; i < bytes; i++)
        v |= (uint64_t)c->p[i] << 8 * i;
    c->p += bytes;
    return v;
}

static inline void skip(Cursor *c, uint64_t bytes) {
    if ((uint64_t)(c->end - c->p) < bytes) {
        c->bad = 1;
        c->p = c->end;
    } else {
        c->p += bytes;
    }
}

static inline uint64_t take_uleb(Cursor *c) {
    uint64_t v = 0;
    for (unsigned shift = 0; !c->bad; shift += 7) {
        uint64_t byte = take(c, 1);
        if (shift < 64)
            v |= (byte & 0x7f) << shift;
        if (!(byte & 0x80))
            break;
    }
    return v;
}

static inline int64_t take_sleb(Cursor *c) {
    uint64_t v = 0;
    for (unsigned shift = 0; !c->bad;) {
        uint64_t byte = take(c, 1);
        if (shift < 64)
            v |= (byte & 0x7f) << shift;
        shift += 7;
        if (!(byte & 0x80)) {
            if (shift < 64 && byte & 0x40)
                v |= ~UINT64_C(0) << shift;
            break;
        }
    }
    return (int64_t)v;
}

// A text up to its 0 byte; "" where it has none.
static inline const char *take_text(Cursor *c) {
    const uint8_t *from = c->p;
    const uint8_t *zero = c->p < c->end ? memchr(c->p, 0, (size_t)(c->end - c->p)) : NULL;
    if (!zero) {
        c->bad = 1;
        c->p = c->end;
        return "";
    }
    c->p = zero + 1;
    return (const char *)from;
}

// A cursor over the next bytes, past which this one goes on.
static inline Cursor take_part(Cursor *c, uint64_t bytes) {
    Cursor part = {c->p, c->p, 0};
    skip(c, bytes);
    part.end = c->bad ? part.p : c->p;
    part.bad = c->bad;
    return part;
}

// The next unit of a DWARF table: its length, which says how wide its offsets are, and what stands behind it.
static inline Cursor take_unit(Cursor *c, int *wide) {
    uint64_t length = take(c, 4);
    *wide = length == 0xffffffff;
    return take_part(c, *wide ? take(c, 8) : length);
}

#endif
