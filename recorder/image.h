// A program's file: its symbols and its lines. Any bytes at all may stand in it.
#ifndef MACHHUREL_IMAGE_H
#define MACHHUREL_IMAGE_H
#include <stddef.h>
#include <stdint.h>

typedef struct {
    const char *name;
    uint64_t value, size;
    int type; // STT_FUNC, STT_OBJECT, STT_TLS
} Symbol;

typedef struct {
    uint64_t address;
    const char *file; // NULL at a sequence's end
    unsigned line, order;
} Line;

typedef struct {
    uint8_t *bytes;
    size_t size;
    uint64_t entry, first; // the entry, and where its first segment is linked
    int moves;             // it is loaded anywhere (PIE, shared object)
    uint64_t tls_size, tls_align;
    Symbol *symbols;       // by value
    size_t symbol_count;
    Line *lines;           // by address
    size_t line_count;
} Image;

typedef struct {
    const uint8_t *p;
    size_t size;
} Part;

Image *image_open(const char *path, const char **why); // NULL, and why
void image_close(Image *image);
Part image_section(const Image *image, const char *name); // no bytes where there is none
const Symbol *image_symbol(const Image *image, const char *name);
const Symbol *image_function(const Image *image, uint64_t address); // that has this address in it
const Line *image_line(const Image *image, uint64_t address);
void image_read_lines(Image *image); // lines.c
void image_add_line(Image *image, uint64_t address, const char *file, unsigned line);
// member.c: moves offset and size to the member of a variable, `frame.pos`; 0 where there is one
int image_member(const Image *image, const char *path, uint64_t *offset, uint64_t *size);
#endif
