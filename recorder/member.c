// Members of a variable, `frame.pos`, by the program's debugging information (.debug_info, DWARF 4 and 5).
#include "cursor.h"
#include "image.h"
#include <stdlib.h>

enum { MOST_ENTRIES = 1 << 22, MOST_DEPTH = 64, MOST_STEPS = 64 };
enum { TAG_ARRAY = 0x01, TAG_CLASS = 0x02, TAG_MEMBER = 0x0d, TAG_POINTER = 0x0f, TAG_STRUCTURE = 0x13, TAG_TYPEDEF = 0x16, TAG_UNION = 0x17,
       TAG_CONST = 0x26, TAG_VARIABLE = 0x34, TAG_VOLATILE = 0x35, TAG_ATOMIC = 0x47 };
enum { AT_NAME = 0x03, AT_SIZE = 0x0b, AT_PLACE = 0x38, AT_TYPE = 0x49 };

// What is kept of an entry: the entries of a unit stand in their order, children behind their parent.
typedef struct {
    uint64_t at, type, size, place;
    uint32_t tag;
    int parent; // -1 at the top
    const char *name;
} Entry;

typedef struct {
    Part info, abbrev, texts, line_texts;
    uint64_t start; // of the unit in .debug_info
    int wide, version;
    unsigned address_size;
    uint64_t abbrev_at;
    Entry *entries;
    int count;
} Unit;

static const char *text_at(Part part, uint64_t at) {
    if (at >= part.size || !memchr(part.p + at, 0, part.size - at))
        return "";
    return (const char *)part.p + at;
}

typedef struct {
    uint64_t number;
    const char *text;
} Value;

static uint64_t fixed_bytes(const Unit *u, uint64_t form) {
    switch (form) {
    case 0x0b: case 0x0c: case 0x11: case 0x25: case 0x29: return 1;
    case 0x05: case 0x12: case 0x26: case 0x2a: return 2;
    case 0x27: case 0x2b: return 3;
    case 0x06: case 0x13: case 0x1c: case 0x28: case 0x2c: return 4;
    case 0x07: case 0x14: case 0x20: case 0x24: return 8;
    case 0x01: return u->address_size;
    case 0x10: case 0x17: case 0x1d: return u->wide ? 8 : 4;
    default: return 0;
    }
}

// A value by its form; a place inside the unit is made one in the section.
static Value take_value(const Unit *u, Cursor *c, uint64_t form, int64_t constant) {
    Value v = {0, ""};
    uint64_t bytes = fixed_bytes(u, form);
    switch (form) {
    case 0x08: v.text = take_text(c); break;
    case 0x0e: v.text = text_at(u->texts, take(c, u->wide ? 8 : 4)); break;
    case 0x1f: v.text = text_at(u->line_texts, take(c, u->wide ? 8 : 4)); break;
    case 0x03: skip(c, take(c, 2)); break;
    case 0x04: skip(c, take(c, 4)); break;
    case 0x09: case 0x18: skip(c, take_uleb(c)); break;
    case 0x0a: skip(c, take(c, 1)); break;
    case 0x0d: v.number = (uint64_t)take_sleb(c); break;
    case 0x0f: case 0x15: case 0x1a: case 0x1b: case 0x22: case 0x23: v.number = take_uleb(c); break;
    case 0x19: v.number = 1; break;
    case 0x1e: skip(c, 16); break;
    case 0x21: v.number = (uint64_t)constant; break;
    default:
        if (!bytes)
            c->bad = 1;
        v.number = take(c, bytes);
        break;
    }
    if (form >= 0x11 && form <= 0x15)
        v.number += u->start;
    return v;
}

// The abbreviation of a number: its tag, whether it has children, and a cursor at its attributes.
static int find_abbrev(const Unit *u, uint64_t code, uint64_t *tag, int *children, Cursor *attributes) {
    if (u->abbrev_at >= u->abbrev.size)
        return 0;
    Cursor c = {u->abbrev.p + u->abbrev_at, u->abbrev.p + u->abbrev.size, 0};
    while (!c.bad) {
        uint64_t this = take_uleb(&c);
        if (!this)
            return 0;
        *tag = take_uleb(&c);
        *children = (int)take(&c, 1);
        if (this == code) {
            *attributes = c;
            return !c.bad;
        }
        for (uint64_t name = 1, form = 1; (name || form) && !c.bad;) {
            name = take_uleb(&c);
            form = take_uleb(&c);
            if (form == 0x21)
                take_sleb(&c);
        }
    }
    return 0;
}

static void take_entry(const Unit *u, Cursor *c, Cursor *attributes, Entry *e) {
    e->name = "";
    while (!c->bad && !attributes->bad) {
        uint64_t name = take_uleb(attributes), form = take_uleb(attributes);
        int64_t constant = form == 0x21 ? take_sleb(attributes) : 0;
        if (!name && !form)
            return;
        Value v = take_value(u, c, form, constant);
        if (name == AT_NAME)
            e->name = v.text;
        if (name == AT_SIZE)
            e->size = v.number;
        if (name == AT_PLACE)
            e->place = v.number;
        if (name == AT_TYPE)
            e->type = v.number;
    }
}

static int has_room(Unit *u) {
    if (u->count >= MOST_ENTRIES)
        return 0;
    if (u->count & (u->count - 1) && u->entries)
        return 1;
    Entry *more = realloc(u->entries, (u->count ? 2 * (size_t)u->count : 1) * sizeof *more);
    if (more)
        u->entries = more;
    return more != NULL;
}

static void read_entries(Unit *u, Cursor *c) {
    int parents[MOST_DEPTH], depth = 0;
    while (c->p < c->end && !c->bad) {
        uint64_t at = (uint64_t)(c->p - u->info.p), code = take_uleb(c), tag;
        int children;
        Cursor attributes;
        if (!code) {
            if (depth > 0)
                depth--;
            continue;
        }
        if (!find_abbrev(u, code, &tag, &children, &attributes) || !has_room(u))
            return;
        Entry *e = &u->entries[u->count++];
        memset(e, 0, sizeof *e);
        e->at = at;
        e->tag = (uint32_t)tag;
        e->parent = depth ? parents[depth - 1] : -1;
        take_entry(u, c, &attributes, e);
        if (children && depth == MOST_DEPTH)
            return;
        if (children)
            parents[depth++] = u->count - 1;
    }
}

static int by_place(const void *a, const void *b) {
    const uint64_t *at = a;
    const Entry *e = b;
    return *at < e->at ? -1 : *at > e->at;
}

// A type without its names and qualifiers.
static const Entry *bare(const Unit *u, uint64_t type) {
    for (int steps = 0; steps < MOST_STEPS && u->count; steps++) {
        const Entry *e = bsearch(&type, u->entries, (size_t)u->count, sizeof *e, by_place);
        if (!e || (e->tag != TAG_TYPEDEF && e->tag != TAG_CONST && e->tag != TAG_VOLATILE && e->tag != TAG_ATOMIC))
            return e;
        type = e->type;
    }
    return NULL;
}

// A member by name, also of a member without a name, whose own members count as its parent's.
static const Entry *find_member(const Unit *u, const Entry *whole, const char *name, size_t length, uint64_t *offset, int depth) {
    int parent = (int)(whole - u->entries);
    for (int k = parent + 1; k < u->count && depth < 8; k++) {
        const Entry *e = &u->entries[k];
        if (e->parent != parent || e->tag != TAG_MEMBER)
            continue;
        if (strlen(e->name) == length && !memcmp(e->name, name, length)) {
            *offset += e->place;
            return e;
        }
        const Entry *inner = *e->name ? NULL : bare(u, e->type);
        uint64_t below = e->place;
        const Entry *found = inner ? find_member(u, inner, name, length, &below, depth + 1) : NULL;
        if (found) {
            *offset += below;
            return found;
        }
    }
    return NULL;
}

// `.half.lo` of a variable of this type.
static int follow(const Unit *u, const Entry *variable, const char *path, uint64_t *offset, uint64_t *size) {
    const Entry *type = bare(u, variable->type);
    *offset = 0;
    while (*path == '.' && type) {
        size_t length = strcspn(++path, ".");
        if (type->tag != TAG_STRUCTURE && type->tag != TAG_UNION && type->tag != TAG_CLASS)
            return -1;
        const Entry *member = find_member(u, type, path, length, offset, 0);
        type = member ? bare(u, member->type) : NULL;
        path += length;
    }
    if (!type || *path || type->tag == TAG_ARRAY)
        return -1;
    *size = type->tag == TAG_POINTER && !type->size ? 8 : type->size;
    return 0;
}

static int look_in(const Unit *u, const char *path, uint64_t *offset, uint64_t *size) {
    size_t length = strcspn(path, ".");
    for (int k = 0; k < u->count; k++) {
        const Entry *e = &u->entries[k];
        if (e->tag == TAG_VARIABLE && e->parent <= 0 && e->type && strlen(e->name) == length && !memcmp(e->name, path, length) &&
            follow(u, e, path + length, offset, size) == 0)
            return 0;
    }
    return -1;
}

static int read_unit(Unit *u, Cursor *c, const char *path, uint64_t *offset, uint64_t *size) {
    u->version = (int)take(c, 2);
    u->count = 0;
    if (u->version == 5) {
        if (take(c, 1) != 1) // a whole unit
            return -1;
        u->address_size = (unsigned)take(c, 1);
        u->abbrev_at = take(c, u->wide ? 8 : 4);
    } else if (u->version == 4) {
        u->abbrev_at = take(c, u->wide ? 8 : 4);
        u->address_size = (unsigned)take(c, 1);
    } else {
        return -1;
    }
    if (u->address_size > 8)
        return -1;
    read_entries(u, c);
    return look_in(u, path, offset, size);
}

int image_member(const Image *image, const char *path, uint64_t *offset, uint64_t *size) {
    Unit u = {.info = image_section(image, ".debug_info"), .abbrev = image_section(image, ".debug_abbrev"),
              .texts = image_section(image, ".debug_str"), .line_texts = image_section(image, ".debug_line_str")};
    int found = -1;
    if (!u.info.p || !u.abbrev.p)
        return -1;
    Cursor c = {u.info.p, u.info.p + u.info.size, 0};
    while (found != 0 && c.p < c.end && !c.bad) {
        u.start = (uint64_t)(c.p - u.info.p);
        Cursor unit = take_unit(&c, &u.wide);
        if (!unit.bad)
            found = read_unit(&u, &unit, path, offset, size);
    }
    free(u.entries);
    return found;
}
