// The line table of a program (.debug_line, DWARF 2 to 5).
#include "cursor.h"
#include "image.h"
#include <stdlib.h>

enum { MOST_LINES = 1 << 24, MOST_FILES = 1 << 16 };
enum { FORM_BLOCK2 = 3, FORM_BLOCK4, FORM_DATA2, FORM_DATA4, FORM_DATA8, FORM_STRING, FORM_BLOCK, FORM_BLOCK1, FORM_DATA1,
       FORM_STRP = 14, FORM_UDATA = 15, FORM_DATA16 = 30, FORM_LINE_STRP = 31 };

typedef struct {
    Image *image;
    Part texts, line_texts;
    int wide; // 8 bytes for an offset
    unsigned version, address_size, least, range, base, standard;
    int first; // what an instruction of the table adds to the line at least
    uint8_t lengths[256];
    const char **files;
    size_t file_count;
} Unit;

typedef struct {
    uint64_t address;
    unsigned file;
    int64_t line;
} State;

static const char *base_name(const char *path) {
    const char *slash = strrchr(path, '/');
    return slash ? slash + 1 : path;
}

static void add_file(Unit *u, const char *name) {
    if (u->file_count < MOST_FILES && u->files)
        u->files[u->file_count++] = base_name(name);
}

static const char *text_at(Part part, uint64_t at) {
    if (at >= part.size || !memchr(part.p + at, 0, part.size - at))
        return "";
    return (const char *)part.p + at;
}

// A value of DWARF 5's file table: its text, or "" where it is something else.
static const char *take_form(Unit *u, Cursor *c, uint64_t form) {
    switch (form) {
    case FORM_STRING: return take_text(c);
    case FORM_STRP: return text_at(u->texts, take(c, u->wide ? 8 : 4));
    case FORM_LINE_STRP: return text_at(u->line_texts, take(c, u->wide ? 8 : 4));
    case FORM_DATA1: skip(c, 1); return "";
    case FORM_DATA2: skip(c, 2); return "";
    case FORM_DATA4: skip(c, 4); return "";
    case FORM_DATA8: skip(c, 8); return "";
    case FORM_DATA16: skip(c, 16); return "";
    case FORM_UDATA: take_uleb(c); return "";
    case FORM_BLOCK: skip(c, take_uleb(c)); return "";
    case FORM_BLOCK1: skip(c, take(c, 1)); return "";
    case FORM_BLOCK2: skip(c, take(c, 2)); return "";
    case FORM_BLOCK4: skip(c, take(c, 4)); return "";
    default: c->bad = 1; return "";
    }
}

static void read_table_5(Unit *u, Cursor *c, int keep) {
    uint64_t formats = take(c, 1), kinds[256], forms[256];
    for (uint64_t k = 0; k < formats; k++) {
        kinds[k] = take_uleb(c);
        forms[k] = take_uleb(c);
    }
    uint64_t count = take_uleb(c);
    for (uint64_t k = 0; k < count && !c->bad && formats; k++) {
        const char *name = "";
        for (uint64_t f = 0; f < formats; f++) {
            const char *text = take_form(u, c, forms[f]);
            if (kinds[f] == 1)
                name = text;
        }
        if (keep)
            add_file(u, name);
    }
}

static void read_files(Unit *u, Cursor *c) {
    if (u->version >= 5) {
        read_table_5(u, c, 0);
        read_table_5(u, c, 1);
        return;
    }
    while (!c->bad && *take_text(c))
        ;
    add_file(u, ""); // files are counted from 1
    while (!c->bad) {
        const char *name = take_text(c);
        if (!*name)
            return;
        add_file(u, name);
        take_uleb(c), take_uleb(c), take_uleb(c);
    }
}

static void add_line(Unit *u, const State *s, int ends) {
    const char *file = s->file < u->file_count ? u->files[s->file] : "?";
    int64_t line = s->line < 0 || s->line > 0x7fffffff ? 0 : s->line;
    image_add_line(u->image, s->address, ends ? NULL : file, (unsigned)line);
}

static void start_over(State *s) {
    s->address = 0;
    s->file = 1;
    s->line = 1;
}

static void extended(Unit *u, Cursor *c, State *s) {
    Cursor body = take_part(c, take_uleb(c));
    switch (take(&body, 1)) {
    case 1:
        add_line(u, s, 1);
        start_over(s);
        break;
    case 2:
        s->address = take(&body, (size_t)(body.end - body.p) > 8 ? 8 : (size_t)(body.end - body.p));
        break;
    case 3:
        add_file(u, take_text(&body));
        break;
    default:
        break;
    }
}

static void advance(const Unit *u, State *s, uint64_t operations) { s->address += operations * u->least; }

static void standard(Unit *u, Cursor *c, State *s, unsigned opcode) {
    switch (opcode) {
    case 1: add_line(u, s, 0); break;
    case 2: advance(u, s, take_uleb(c)); break;
    case 3: s->line = (int64_t)((uint64_t)s->line + (uint64_t)take_sleb(c)); break;
    case 4: s->file = (unsigned)take_uleb(c); break;
    case 8: advance(u, s, (255 - u->base) / u->range); break;
    case 9: s->address += take(c, 2); break;
    default:
        for (unsigned k = 0; k < u->lengths[opcode]; k++)
            take_uleb(c);
        break;
    }
}

static void run_program(Unit *u, Cursor *c) {
    State s;
    start_over(&s);
    while (c->p < c->end && !c->bad) {
        unsigned opcode = (unsigned)take(c, 1);
        if (opcode == 0) {
            extended(u, c, &s);
        } else if (opcode < u->base) {
            standard(u, c, &s, opcode);
        } else {
            unsigned adjusted = opcode - u->base;
            advance(u, &s, adjusted / u->range);
            s.line += u->first + (int)(adjusted % u->range);
            add_line(u, &s, 0);
        }
    }
}

static void read_unit(Unit *u, Cursor *c) {
    u->version = (unsigned)take(c, 2);
    if (u->version < 2 || u->version > 5)
        return;
    if (u->version >= 5)
        skip(c, 2);
    Cursor head = take_part(c, take(c, u->wide ? 8 : 4));
    u->least = (unsigned)take(&head, 1);
    if (u->version >= 4)
        skip(&head, 1);
    skip(&head, 1);
    u->first = (int8_t)take(&head, 1);
    u->range = (unsigned)take(&head, 1);
    u->base = (unsigned)take(&head, 1);
    if (!u->range || !u->base)
        return;
    memset(u->lengths, 0, sizeof u->lengths);
    for (unsigned k = 1; k < u->base; k++)
        u->lengths[k] = (uint8_t)take(&head, 1);
    u->file_count = 0;
    read_files(u, &head);
    run_program(u, c);
}

void image_add_line(Image *image, uint64_t address, const char *file, unsigned line) {
    size_t n = image->line_count;
    if (n >= MOST_LINES)
        return;
    if ((n & (n - 1)) == 0 || !image->lines) {
        Line *more = realloc(image->lines, (n ? 2 * n : 1) * sizeof *more);
        if (!more)
            return;
        image->lines = more;
    }
    Line one = {address, file, line, (unsigned)n};
    image->lines[image->line_count++] = one;
}

// By address; of the same address a sequence's end comes first, and then the later row counts.
static int by_address(const void *a, const void *b) {
    const Line *x = a, *y = b;
    if (x->address != y->address)
        return x->address < y->address ? -1 : 1;
    if ((x->file != NULL) != (y->file != NULL))
        return x->file ? 1 : -1;
    return x->order < y->order ? -1 : 1;
}

void image_read_lines(Image *image) {
    Part table = image_section(image, ".debug_line");
    if (!table.p)
        return;
    Cursor c = {table.p, table.p + table.size, 0};
    Unit u = {.image = image, .texts = image_section(image, ".debug_str"), .line_texts = image_section(image, ".debug_line_str")};
    u.files = calloc(MOST_FILES, sizeof *u.files);
    while (u.files && c.p < c.end && !c.bad) {
        Cursor unit = take_unit(&c, &u.wide);
        if (!unit.bad)
            read_unit(&u, &unit);
    }
    free(u.files);
    if (image->lines)
        qsort(image->lines, image->line_count, sizeof *image->lines, by_address);
}
