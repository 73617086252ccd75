// Runs a program at full speed, with debug registers on the variables, and records the instructions that touch them.
#include "recorder.h"
#include "witness.h"
#include <signal.h>
#include <stdlib.h>
#include <string.h>
#include <sys/ptrace.h>

enum { PIECES = 4, ON_ACCESS = 3, BACK = 1 << 16 };

typedef struct {
    Recorder r;
    uint64_t at[PIECES];
    unsigned size[PIECES];
    int pieces;
    uint64_t max, after;
    const char *ended;
} Arm;

// A debug register has 1, 2, 4 or 8 bytes at a multiple of that: a variable is cut into such pieces.
static int cut(Arm *arm, const Variable *v) {
    uint64_t at = v->address, end = v->address + v->length;
    while (at < end) {
        unsigned size = 8;
        while (at % size || at + size > end)
            size /= 2;
        if (arm->pieces == PIECES)
            return -1;
        arm->at[arm->pieces] = at;
        arm->size[arm->pieces++] = size;
        at += size;
    }
    return 0;
}

static uint64_t control(const Arm *arm) {
    uint64_t bits = 0;
    for (int k = 0; k < arm->pieces; k++) {
        uint64_t length = arm->size[k] == 8 ? 2 : arm->size[k] - 1;
        bits |= UINT64_C(1) << 2 * k | (ON_ACCESS | length << 2) << (16 + 4 * k);
    }
    return bits;
}

static int set_registers(const Arm *arm, Thread *t) {
    for (int k = 0; k < arm->pieces; k++)
        if (process_set_debug(t, k, arm->at[k]) != 0)
            return -1;
    t->armed = process_set_debug(t, 7, control(arm)) == 0;
    return t->armed ? 0 : -1;
}

// The registers before an instruction, from those behind it. 0 where a register of its address is lost.
static int registers_before(const Encoded *e, const Regs *after, Regs *before) {
    *before = *after;
    uint32_t lost = e->needs & e->writes;
    uint64_t size = e->record[16], list = e->record[38];
    if (list == 24 || list == 25) { // a string instruction moved them
        uint64_t moved = after->flags & 0x400 ? size : 0 - size;
        for (int k = 6; k <= 7; k++)
            if (e->writes >> k & 1)
                before->slot[k] += moved;
        if (e->counter)
            before->slot[1]++;
        lost &= ~(3u << 6);
    }
    if (list == 26 && !(lost & ~(1u << 4)))
        before->slot[4] += 8, lost = 0;
    if (list == 27 && !(e->writes & ~(1u << 4) & lost))
        before->slot[4] -= 8, lost = 0;
    return !lost;
}

static int touches_watched(const Arm *arm, const Encoded *e, const Regs *before) {
    uint8_t size;
    Accesses all;
    const uint8_t *record = encoded_record(e, before, &size);
    if (accesses_logged(record, size, before, &all) != 0)
        return 0;
    for (int k = 0; k < arm->pieces; k++)
        for (unsigned i = 0; i < arm->size[k]; i++)
            if (accesses_touch(&all, arm->at[k] + i, 0))
                return 1;
    return 0;
}

// The instruction that ends at an address, by decoding from its function's start; 0 where there is none.
static uint64_t instruction_before(Recorder *r, uint64_t end) {
    const Module *m = process_module(&r->process, end - 1);
    const Symbol *f = m && m->image ? image_function(m->image, end - 1 - m->bias) : NULL;
    if (!f || end - m->bias - f->value > BACK)
        return 0;
    for (uint64_t at = f->value + m->bias; at < end;) {
        uint8_t code[CODE_BYTES];
        Encoded e;
        size_t n = process_read(&r->process, at, code, sizeof code);
        if (!n || encode(code, n, at, &e) != 0)
            return 0;
        if (at + e.length == end)
            return at;
        at += e.length;
    }
    return 0;
}

// Tries an instruction: where it is found to touch the variable, it is recorded.
static int try_at(Arm *arm, const Thread *t, uint64_t pc, const Regs *after, int repeats) {
    Regs at = *after, before;
    at.slot[SLOT_RIP] = pc;
    Site *s = pc ? recorder_site(&arm->r, &at) : NULL;
    if (!s || (repeats && !s->e.counter) || s->e.how == COMPLEX || !registers_before(&s->e, &at, &before) ||
        !touches_watched(arm, &s->e, &before))
        return 0;
    recorder_stepped(&arm->r, t, s, &before);
    return 1;
}

// Nobody can tell which instruction it was, or where it went: it may have written the variable.
static void record_unknown(Arm *arm, const Thread *t, uint64_t pc, const Regs *after) {
    Regs at = *after;
    if (pc)
        at.slot[SLOT_RIP] = pc;
    Site *s = recorder_site(&arm->r, &at);
    if (!s)
        return;
    Site unknown = *s;
    memset(unknown.e.record + 3, 0, sizeof unknown.e.record - 3);
    unknown.e.record[0] = 0x10;
    unknown.e.record[36] = 0x20;
    unknown.e.size = 40;
    unknown.e.counter = 0;
    unknown.e.needs = 0;
    unknown.e.how = COMPLEX;
    recorder_stepped(&arm->r, t, &unknown, &at);
}

static void touched(Arm *arm, Thread *t) {
    Regs after;
    if (process_registers(t, &after) != 0)
        return;
    uint64_t end = after.slot[SLOT_RIP], before = instruction_before(&arm->r, end);
    if (!try_at(arm, t, before, &after, 0) && !try_at(arm, t, end, &after, 1))
        record_unknown(arm, t, before, &after);
}

// Steps through what comes behind a touch. The debug registers rest meanwhile: the steps see the touches themselves.
static void step_after(Arm *arm, Thread *t) {
    Process *p = &arm->r.process;
    pid_t id = t->id;
    process_set_debug(t, 7, 0);
    t->armed = 0;
    for (uint64_t k = 0; k < arm->after && !arm->ended;) {
        Regs before;
        int ready;
        Site *s = process_registers(t, &before) == 0 ? recorder_site(&arm->r, &before) : NULL;
        if (t->signal)
            recorder_signal(&arm->r, t);
        if (!s || process_resume(t, PTRACE_SINGLESTEP) != 0)
            return;
        Stop stop = process_wait(p, t, &ready, 1);
        if (stop == GONE || stop == CHANGED || t->id != id)
            return;
        if (stop != STEPPED && stop != WATCHED)
            continue;
        recorder_stepped(&arm->r, t, s, &before);
        k++;
    }
}

static void take_stop(Arm *arm, Thread *t, Stop stop) {
    Process *p = &arm->r.process;
    if (stop == GONE && (p->ended || !p->thread_count))
        arm->ended = "the program ended";
    if (stop == CHANGED)
        arm->ended = "the program became another one (exec)";
    if (stop == WATCHED) {
        touched(arm, t);
        process_set_debug(t, 6, 0);
        if (arm->after)
            step_after(arm, t);
    }
    if (arm->max && arm->r.out.records >= arm->max)
        arm->ended = "as many as were asked for";
}

static void run_armed(Arm *arm) {
    Process *p = &arm->r.process;
    while (!arm->ended) {
        for (int k = 0; k < p->thread_count && !arm->ended; k++) {
            Thread *t = &p->threads[k];
            if (t->runs)
                continue;
            if (!t->armed && set_registers(arm, t) != 0)
                arm->ended = "a debug register could not be set";
            if (t->signal)
                recorder_signal(&arm->r, t);
            process_resume(t, PTRACE_CONT);
        }
        Thread *t = process_next(p);
        int ready;
        if (t)
            take_stop(arm, t, process_wait(p, t, &ready, 1));
        else
            arm->ended = "the program ended";
        if (recorder_interrupted && !arm->ended)
            arm->ended = "interrupted";
    }
}

int record_arm(const Asked *asked) {
    Regs regs;
    Arm *arm = calloc(1, sizeof *arm);
    if (!arm)
        return complain(1, "there is no memory left", NULL);
    arm->max = asked->max;
    arm->after = asked->after;
    int status = recorder_begin(&arm->r, asked, &regs);
    for (int k = 0; !status && k < arm->r.variables.count; k++)
        if (cut(arm, &arm->r.variables.all[k]) != 0)
            status = complain(1, "four debug registers are too few for these variables", asked->watch[k]);
    if (!status && set_registers(arm, &arm->r.process.threads[0]) != 0)
        status = complain(2, "debug registers are missing here", NULL);
    if (status) {
        if (arm->r.process.id)
            kill(arm->r.process.id, SIGKILL);
    } else {
        fputs("note recorded at full speed: what the kernel stores is seen only when the variable is touched next\n", arm->r.out.side);
        run_armed(arm);
        status = recorder_end(&arm->r, asked, arm->ended);
    }
    free(arm);
    return status;
}
