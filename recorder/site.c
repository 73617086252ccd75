// The instructions of a program, each described once while its bytes stay as they are.
#include "recorder.h"
#include <stdlib.h>
#include <string.h>

// Where the code came from: a line of the side file for each place.
static void tell(Recorder *r, const Site *s) {
    FILE *side = r->out.side;
    if (!side)
        return;
    const Module *module = process_module(&r->process, s->pc);
    const Image *image = module ? module->image : NULL;
    uint64_t linked = module ? s->pc - module->bias : 0;
    const Line *line = image ? image_line(image, linked) : NULL;
    const Symbol *function = image ? image_function(image, linked) : NULL;
    fprintf(side, "site %u 0x%llx %u %s %u ", s->number, (unsigned long long)s->pc, s->e.length, how_word(s->e.how),
            s->e.record[1] | s->e.record[2] << 8);
    out_word(&r->out, line ? line->file : "-");
    fprintf(side, ":%u ", line ? line->line : 0);
    out_word(&r->out, function ? function->name : "-");
    fprintf(side, " %s", s->e.text[0] ? s->e.text : "?");
    if (s->e.why)
        fprintf(side, " ; %s", s->e.why);
    fputc('\n', side);
}

// What cannot be read or decoded may do anything.
static void unreadable(Encoded *e, const char *why) {
    memset(e, 0, sizeof *e);
    e->record[0] = 0x10;
    e->record[1] = e->record[2] = 0xff;
    e->record[36] = 0x20;
    e->size = 40;
    e->how = COMPLEX;
    e->why = why;
}

Site *recorder_site(Recorder *r, const Regs *regs) {
    uint64_t pc = regs->slot[SLOT_RIP];
    uint8_t code[CODE_BYTES] = {0};
    size_t bytes = process_read(&r->process, pc, code, sizeof code);
    Site **bucket = &r->sites[(pc ^ pc >> 14) % BUCKETS];
    for (Site *s = *bucket; s; s = s->next)
        if (s->pc == pc && s->code_bytes == bytes && !memcmp(s->code, code, s->e.length ? s->e.length : bytes))
            return s;
    Site *s = calloc(1, sizeof *s);
    if (!s)
        return NULL;
    s->pc = pc;
    s->code_bytes = bytes;
    memcpy(s->code, code, sizeof code);
    if (!bytes)
        unreadable(&s->e, "the code cannot be read");
    else if (encode(code, bytes, pc, &s->e) != 0)
        unreadable(&s->e, "no instruction that Zydis knows");
    s->number = r->site_count++;
    s->next = *bucket;
    *bucket = s;
    tell(r, s);
    return s;
}
