// Asks whether the records are right on this machine: three witnesses judge every step, and spoilt records show that they would notice.
#include "recorder.h"
#include "witness.h"
#include <signal.h>
#include <stdio.h>
#include <stdlib.h>
#include <string.h>
#include <sys/ptrace.h>
#include <unistd.h>

enum { SPOILINGS = 6, MOST_SHOWN = 40, ON_ANY_ACCESS = 3 << 16 };

typedef struct {
    char words[160];
    uint64_t count;
} Class;

typedef struct {
    Recorder r;
    Pages pages;
    Guard guard;
    uint64_t judged, guarded, by_kernel, seconds;
    uint64_t spoilt[SPOILINGS], noticed[SPOILINGS], noticed_by_machine;
    Class differences[MOST_SHOWN];
    int class_count;
    uint64_t difference_count;
    uint64_t rseq; // where the kernel keeps the processor's number: 32 bytes that change in any step
    int has_guard;
} Check;

static void differs(Check *c, const Site *s, const char *words) {
    char line[160];
    c->difference_count++;
    snprintf(line, sizeof line, "%.80s: %.70s", s->e.text, words);
    for (int k = 0; k < c->class_count; k++)
        if (!strcmp(c->differences[k].words, line)) {
            c->differences[k].count++;
            return;
        }
    if (c->class_count == MOST_SHOWN)
        return;
    Class *one = &c->differences[c->class_count++];
    memcpy(one->words, line, sizeof line);
    one->count = 1;
}

// The six ways in which a record is spoilt, each in its turn.
static void spoil(uint8_t *r, size_t size, int how) {
    switch (how) {
    case 0: r[18]++; break;                                        // displacement
    case 1: r[16] = (uint8_t)(r[16] == 64 ? 63 : r[16] + 1); break; // size
    case 2: r[37] ^= 0xff; break;                                  // accesses
    case 3: r[11] = (uint8_t)((r[11] + 1) & 7); break;             // base
    case 4: r[3] = 0; r[38] = 0; break;                            // operands and list left out
    default:                                                       // segment or scale or list
        if (size == 41)
            r[40] = (uint8_t)(3 - r[40]);
        else if (r[38] == 26 || r[38] == 27)
            r[38] = (uint8_t)(53 - r[38]);
        else
            r[17] ^= 3;
        break;
    }
}

// Whether the witnesses of the machine itself object to what was said.
static const char *machine_objects(Check *c, const Thread *t, const Accesses *said, int guarded, uint64_t changed) {
    const char *words = guarded >= 0 ? guard_say(&c->guard, t, said, &said->all[guarded]) : NULL;
    if (!words && changed)
        words = "memory changed elsewhere";
    return words;
}

static uint64_t memory_changed(Check *c, const Accesses *said) {
    Accesses may = *said;
    if (c->rseq && may.count < MOST_ACCESSES) {
        Access kernel = {1, c->rseq, 32};
        may.all[may.count++] = kernel;
    }
    return pages_changed(&c->pages, &c->r.process, &may);
}

typedef struct {
    Regs before;
    Site *site;
    Accesses logged, said, operands; // by the record; by the record or the spoilt one; by Zydis
    unsigned refused;
    int spoiling; // -1 for none
    int guarded;  // which of the accesses said is watched; -1 for none
} Judged;

static void prepare(Check *c, const Asked *asked, Judged *j) {
    uint8_t size, spoilt[RECORD_BYTES];
    const uint8_t *record = encoded_record(&j->site->e, &j->before, &size);
    j->refused = accesses_logged(record, size, &j->before, &j->logged);
    j->said = j->logged;
    j->spoiling = -1;
    if (asked->spoil && !j->refused && j->logged.count) {
        int how = (int)(c->r.steps % SPOILINGS);
        memcpy(spoilt, record, size);
        spoil(spoilt, size, how);
        if (accesses_logged(spoilt, size, &j->before, &j->said) == 0 && !accesses_equal(&j->said, &j->logged))
            j->spoiling = how;
        else
            j->said = j->logged;
    }
    int can_be = c->has_guard && (!asked->emulated || j->site->e.falls);
    j->guarded = can_be && !j->refused && j->said.count ? (int)(c->r.steps / SPOILINGS % (uint64_t)j->said.count) : -1;
}

static void judge(Check *c, const Thread *t, Judged *j) {
    uint64_t changed = memory_changed(c, &j->said);
    if (j->refused) {
        if (j->refused != 4)
            differs(c, j->site, "its record is refused");
        return;
    }
    int told = accesses_by_operands(j->site->code, j->site->code_bytes, &j->before, &j->operands) == 0;
    const char *machine = machine_objects(c, t, &j->said, j->guarded, changed);
    const char *operands = told && !accesses_equal(&j->said, &j->operands) ? "Zydis' operands say otherwise" : NULL;
    if (j->spoiling >= 0) {
        c->spoilt[j->spoiling]++;
        c->noticed[j->spoiling] += machine || operands;
        c->noticed_by_machine += machine != NULL;
        if (!machine && !operands)
            differs(c, j->site, "a spoilt record was not noticed");
        return;
    }
    c->judged++;
    c->guarded += j->guarded >= 0;
    if (!told)
        differs(c, j->site, "Zydis cannot say where");
    if (operands)
        differs(c, j->site, operands);
    if (machine)
        differs(c, j->site, machine);
}

// Runs up to the next instruction by a breakpoint there, without the single step.
static Stop step_by_breakpoint(Check *c, Thread *t, const Judged *j) {
    Process *p = &c->r.process;
    uint64_t next = j->before.slot[SLOT_RIP] + j->site->e.length;
    uint8_t was, trap = 0xcc;
    int ready;
    if (process_read(p, next, &was, 1) != 1 || process_write(p, next, &trap, 1) != 0 || process_resume(t, PTRACE_CONT) != 0)
        return GONE;
    Stop stop = process_wait(p, t, &ready, 1);
    if (stop == GONE)
        return GONE;
    process_write(p, next, &was, 1);
    return stop == TRAPPED && process_step_back(t, next) ? STEPPED : stop;
}

static Stop step(Check *c, const Asked *asked, Thread *t, const Judged *j) {
    int ready;
    if (j->guarded >= 0)
        guard_set(&c->guard, t, &j->said.all[j->guarded], asked->emulated ? (int)(c->r.steps / 7 % 3) : -1);
    if (j->guarded >= 0 && asked->emulated && !t->signal)
        return step_by_breakpoint(c, t, j);
    if (asked->emulated)
        guard_clear(&c->guard, t);
    if (process_resume(t, PTRACE_SINGLESTEP) != 0)
        return GONE;
    return process_wait(&c->r.process, t, &ready, 1);
}

// One instruction. 0 where the program has ended or is followed no further.
static int check_step(Check *c, const Asked *asked, Thread *t) {
    Judged j;
    Process *p = &c->r.process;
    if (process_registers(t, &j.before) != 0 || !(j.site = recorder_site(&c->r, &j.before)))
        return 0;
    prepare(c, asked, &j);
    for (;;) {
        int signalled = t->signal != 0;
        Stop stop = step(c, asked, t, &j);
        if (stop == GONE || stop == CHANGED || p->thread_count != 1)
            return 0;
        if (stop == STEPPED || stop == WATCHED)
            break;
        if (stop == AT_HANDLER || signalled) { // the kernel wrote a frame: taken as it is
            pages_changed(&c->pages, p, NULL);
            return 1;
        }
        if (t->signal && !j.site->e.is_syscall)
            return 1; // nothing ran: it is tried again with the signal
    }
    c->r.steps++;
    c->r.by_how[j.site->e.how]++;
    judge(c, t, &j);
    if (asked->emulated)
        guard_clear(&c->guard, t);
    if (j.site->e.is_syscall) { // it may have mapped memory
        c->by_kernel++;
        pages_find(&c->pages, p);
    }
    return 1;
}

static void find_rseq(Check *c) {
#ifdef PTRACE_GET_RSEQ_CONFIGURATION
    struct __ptrace_rseq_configuration about;
    memset(&about, 0, sizeof about);
    if (ptrace(PTRACE_GET_RSEQ_CONFIGURATION, c->r.process.id, sizeof about, &about) > 0)
        c->rseq = about.rseq_abi_pointer;
#else
    (void)c;
#endif
}

// Whether a debug register can be set here.
static int can_guard(const Thread *t) {
    int can = process_set_debug(t, 0, 0x1000) == 0 && process_set_debug(t, 7, 1 | ON_ANY_ACCESS) == 0;
    process_set_debug(t, 7, 0);
    return can;
}

static int report(const Check *c, const Asked *asked) {
    printf("%s: %llu steps: %llu exact, %llu with registers missing, %llu complex; %llu in the kernel\n", asked->program[0],
           (unsigned long long)c->r.steps, (unsigned long long)c->r.by_how[EXACT], (unsigned long long)c->r.by_how[REGISTERS],
           (unsigned long long)c->r.by_how[COMPLEX], (unsigned long long)c->by_kernel);
    if (!asked->spoil)
        printf("  judged %llu, of these %llu with debug registers%s; %llu bytes of memory were too many to compare\n", (unsigned long long)c->judged,
               (unsigned long long)c->guarded, c->has_guard ? "" : " (NONE CAN BE SET HERE)", (unsigned long long)c->pages.left_out);
    uint64_t all = 0, noticed = 0;
    for (int k = 0; k < SPOILINGS; k++) {
        all += c->spoilt[k];
        noticed += c->noticed[k];
        if (asked->spoil)
            printf("  spoilt by way %d: %llu, noticed %llu\n", k, (unsigned long long)c->spoilt[k], (unsigned long long)c->noticed[k]);
    }
    if (asked->spoil)
        printf("  spoilt in all %llu, noticed %llu, by the machine itself %llu\n", (unsigned long long)all, (unsigned long long)noticed,
               (unsigned long long)c->noticed_by_machine);
    for (int k = 0; k < c->class_count; k++)
        printf("  DIFFERENCE %llu times: %s\n", (unsigned long long)c->differences[k].count, c->differences[k].words);
    printf("  differences: %llu\n", (unsigned long long)c->difference_count);
    return c->difference_count ? 1 : 0;
}

// The program of odd instructions that is made with the recorder.
static int find_zoo(char path[4096]) {
    ssize_t n = readlink("/proc/self/exe", path, 4000);
    if (n <= 0)
        return -1;
    memcpy(path + n, "-zoo", 5);
    return access(path, X_OK);
}

static int begin(Check *c, const Asked *asked) {
    const char *why = NULL;
    uint64_t from;
    Process *p = &c->r.process;
    int started = process_start(p, asked->program, &why);
    if (started != 0)
        return complain(started == -2 ? 2 : 1, why, asked->program[0]);
    if (find_place(p, asked->from ? asked->from : "main", &from) != 0) {
        if (asked->from) {
            kill(p->id, SIGKILL);
            return complain(1, "there is no such function in the program", asked->from);
        }
        from = p->bias + p->image->entry;
    }
    if (process_run_to(p, from, &why) != 0)
        return complain(1, why, asked->program[0]);
    find_rseq(c);
    c->has_guard = can_guard(&p->threads[0]);
    pages_find(&c->pages, p);
    return 0;
}

int record_check(const Asked *given) {
    char path[4096];
    char *zoo[2] = {path, NULL};
    Asked asked = *given;
    if (!*asked.program) {
        if (find_zoo(path) != 0)
            return complain(2, "the program of odd instructions is missing: recorder/build makes it", NULL);
        asked.program = zoo;
    }
    Check *c = calloc(1, sizeof *c);
    if (!c)
        return complain(1, "there is no memory left", NULL);
    int status = begin(c, &asked);
    if (!status) {
        while ((!asked.max || c->r.steps < asked.max) && check_step(c, &asked, &c->r.process.threads[0]))
            ;
        guard_clear(&c->guard, &c->r.process.threads[0]);
        status = report(c, &asked);
        process_release(&c->r.process);
    }
    pages_free(&c->pages);
    free(c);
    return status;
}
