// Finds variables by name.
#include "watch.h"
#include <elf.h>
#include <stdio.h>
#include <stdlib.h>
#include <string.h>

// Where a symbol is: a thread-local one lies below the thread's base, which fs has.
static uint64_t address_of(const Process *p, const Regs *regs, const Symbol *s) {
    if (s->type != STT_TLS)
        return p->bias + s->value;
    uint64_t align = p->image->tls_align, size = p->image->tls_size;
    return regs->slot[SLOT_FS] - (size + align - 1) / align * align + s->value;
}

int variable_read(const Process *p, const Variable *v, uint64_t *value) {
    uint8_t bytes[8] = {0};
    if (process_read(p, v->address, bytes, v->length) != v->length)
        return 0;
    *value = 0;
    for (unsigned k = 0; k < 8; k++)
        *value |= (uint64_t)bytes[k] << 8 * k;
    return 1;
}

static int add(Variables *v, const Process *p, const char *name, uint64_t address, uint64_t length) {
    if (v->count == MOST_VARIABLES) {
        v->left_out++;
        return -1;
    }
    Variable *one = &v->all[v->count++];
    memset(one, 0, sizeof *one);
    snprintf(one->name, sizeof one->name, "%s", name);
    one->address = address;
    one->length = (unsigned)length;
    one->is_readable = variable_read(p, one, &one->value);
    return 0;
}

// Splits `name.member+offset:length` in place. 0 where a number in it is none.
static int split(char *words, uint64_t *offset, uint64_t *length) {
    char *colon = strrchr(words, ':'), *plus = strrchr(words, '+'), *end;
    *offset = *length = 0;
    if (colon) {
        *colon = 0;
        *length = strtoull(colon + 1, &end, 0);
        if (*end || !colon[1] || *length < 1 || *length > 8)
            return 0;
    }
    if (plus) {
        *plus = 0;
        *offset = strtoull(plus + 1, &end, 0);
        if (*end || !plus[1])
            return 0;
    }
    return 1;
}

int variables_add(Variables *v, const Process *p, const Regs *regs, const char *words, const char **why) {
    char name[128];
    uint64_t offset, length, member = 0;
    if (snprintf(name, sizeof name, "%s", words) >= (int)sizeof name || !split(name, &offset, &length)) {
        *why = "expected a variable, as position, frame.pos, frame+59:8";
        return -1;
    }
    char *dot = strchr(name, '.');
    const Symbol *s = image_symbol(p->image, name); // a name of the compiler's may have a dot in it
    uint64_t size = s ? s->size : 0;
    if (!s && dot) {
        if (image_member(p->image, name, &member, &size) != 0) {
            *why = "no member of that name is in the program's debugging information (compile with -g)";
            return -1;
        }
        *dot = 0;
        s = image_symbol(p->image, name);
    }
    if (!s || (s->type != STT_OBJECT && s->type != STT_TLS)) {
        *why = "the program has no variable of that name";
        return -1;
    }
    if (!length)
        length = size > offset ? size - offset : 0;
    if (length < 1 || length > 8) {
        *why = "it has not 1 to 8 bytes: say which of them, as name+offset:length";
        return -1;
    }
    *why = "too many variables";
    return add(v, p, words, address_of(p, regs, s) + member + offset, length);
}

void variables_add_all(Variables *v, const Process *p, const Regs *regs) {
    for (size_t k = 0; k < p->image->symbol_count; k++) {
        const Symbol *s = &p->image->symbols[k];
        int is_variable = s->type == STT_OBJECT || s->type == STT_TLS;
        if (is_variable && s->size >= 1 && s->size <= 8 && !strchr(s->name, '@') && strncmp(s->name, "__", 2) && strncmp(s->name, "_IO_", 4))
            add(v, p, s->name, address_of(p, regs, s), s->size);
    }
}
