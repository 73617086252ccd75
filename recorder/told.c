// What is said of a step in the side file: who touched a watched variable, and what was in it then.
#include "../include/machhurel.h"
#include "recorder.h"
#include "witness.h"
#include <string.h>

// Which bytes of a variable an access reaches: bit i for byte i.
static unsigned reached(const Variable *v, const Access *a) {
    unsigned bits = 0;
    for (unsigned i = 0; i < v->length; i++)
        bits |= (unsigned)(v->address + i - a->address < a->size) << i;
    return bits;
}

static uint64_t spread(unsigned bits) {
    uint64_t mask = 0;
    for (int i = 0; i < 8; i++)
        mask |= bits >> i & 1 ? UINT64_C(0xff) << 8 * i : 0;
    return mask;
}

static void changed(Recorder *r, uint64_t record, Variable *v, uint64_t value, const char *words) {
    fprintf(r->out.side, "changed %llu %d 0x%llx %s\n", (unsigned long long)record, (int)(v - r->variables.all), (unsigned long long)value,
            words);
    v->value = value;
}

static const char *call_name(uint64_t number) {
    static const struct {
        uint64_t number;
        const char *name;
    } NAMES[] = {{0, "read"}, {1, "write"}, {4, "stat"}, {5, "fstat"}, {7, "poll"}, {9, "mmap"}, {13, "rt_sigaction"},
                 {14, "rt_sigprocmask"}, {15, "rt_sigreturn"}, {16, "ioctl"}, {17, "pread64"}, {19, "readv"}, {23, "select"},
                 {35, "nanosleep"}, {45, "recvfrom"}, {47, "recvmsg"}, {63, "uname"}, {96, "gettimeofday"}, {202, "futex"},
                 {228, "clock_gettime"}, {230, "clock_nanosleep"}, {232, "epoll_wait"}, {257, "openat"}, {295, "preadv"},
                 {299, "recvmmsg"}, {310, "process_vm_readv"}, {318, "getrandom"}};
    for (size_t k = 0; k < sizeof NAMES / sizeof *NAMES; k++)
        if (NAMES[k].number == number)
            return NAMES[k].name;
    return NULL;
}

// After what has no log every variable is looked at.
static void look_at_all(Recorder *r, uint64_t record, const Site *site, const Regs *before) {
    char words[64] = "an instruction without a log";
    const char *name = call_name(before->slot[0]);
    if (site->e.is_syscall && name)
        snprintf(words, sizeof words, "the kernel in %s()", name);
    else if (site->e.is_syscall)
        snprintf(words, sizeof words, "the kernel in system call %llu", (unsigned long long)before->slot[0]);
    for (int k = 0; k < r->variables.count; k++) {
        Variable *v = &r->variables.all[k];
        uint64_t now;
        if (variable_read(&r->process, v, &now) && now != v->value)
            changed(r, record, v, now, words);
    }
}

static void touched(Recorder *r, uint64_t record, const Site *site, Variable *v, const Access *a) {
    unsigned bits = reached(v, a);
    uint64_t now, mask = a->writes ? spread(bits) : 0;
    if (!bits)
        return;
    if (!variable_read(&r->process, v, &now))
        now = v->value;
    // a read stands before what the same instruction writes: only a change of bytes that nobody here writes is strange
    if (a->writes && (now ^ v->value) & ~mask)
        changed(r, record, v, (v->value & mask) | (now & ~mask), "nobody who was followed");
    if (a->writes)
        v->value = now;
    fprintf(r->out.side, "touch %llu %u %d %c 0x%02x 0x%llx\n", (unsigned long long)record, site->number, (int)(v - r->variables.all),
            a->writes ? 'w' : 'r', bits, (unsigned long long)v->value);
}

// Reads alone leave a variable as it is: another value then came from somebody who is not followed.
static void look_before_reads(Recorder *r, uint64_t record, const uint8_t *log, size_t length) {
    Access a;
    for (int k = 0; k < r->variables.count; k++) {
        Variable *v = &r->variables.all[k];
        int reads = 0, writes = 0;
        for (size_t at = 0; next_access(log, length, &at, &a);) {
            reads |= !a.writes && reached(v, &a);
            writes |= a.writes && reached(v, &a);
        }
        uint64_t now;
        if (reads && !writes && variable_read(&r->process, v, &now) && now != v->value)
            changed(r, record, v, now, "nobody who was followed");
    }
}

static int is_near(const Recorder *r, const uint8_t *log, size_t length) {
    Access a;
    for (size_t at = 0; next_access(log, length, &at, &a);)
        for (int k = 0; k < r->variables.count; k++)
            if (reached(&r->variables.all[k], &a))
                return 1;
    return 0;
}

static void tell_touches(Recorder *r, uint64_t record, const Site *site, const uint8_t *bytes, size_t size, const Regs *before) {
    uint8_t file[157], log[MACHHUREL_LOG_BYTES];
    uint64_t answer = machhurel_visit(bytes, size, file, file_item(file, (1u << SLOTS) - 1, before->slot), log, sizeof log, 0);
    if (MACHHUREL_NUMBER(answer)) {
        look_at_all(r, record, site, before);
        return;
    }
    size_t length = MACHHUREL_COUNT(answer);
    if (!is_near(r, log, length))
        return;
    look_before_reads(r, record, log, length);
    Access a;
    for (size_t at = 0; next_access(log, length, &at, &a);)
        for (int k = 0; k < r->variables.count; k++)
            touched(r, record, site, &r->variables.all[k], &a);
}

void recorder_stepped(Recorder *r, const Thread *t, Site *site, const Regs *before) {
    uint8_t size;
    const uint8_t *bytes = encoded_record(&site->e, before, &size);
    uint64_t record = r->out.records;
    int waits = bytes == site->e.zero; // needs no register
    if (t->id != r->last_thread) {
        fprintf(r->out.side, "thread %llu %d\n", (unsigned long long)record, (int)t->id);
        r->last_thread = t->id;
    }
    out_record(&r->out, bytes, size, waits ? 0 : site->e.needs, before, site->e.length);
    r->steps++;
    r->by_how[site->e.how]++;
    site->steps++;
    if (r->variables.count)
        tell_touches(r, record, site, bytes, size, before);
}

void recorder_signal(Recorder *r, const Thread *t) {
    r->signals++;
    fprintf(r->out.side, "signal %llu %d\n", (unsigned long long)r->out.records, t->signal);
}
