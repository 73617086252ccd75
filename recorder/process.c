// Starts a program under ptrace, sets its threads going and says how they stopped.
#include "process.h"
#include <elf.h>
#include <errno.h>
#include <fcntl.h>
#include <signal.h>
#include <stdio.h>
#include <stdlib.h>
#include <string.h>
#include <sys/personality.h>
#include <sys/ptrace.h>
#include <sys/uio.h>
#include <sys/user.h>
#include <sys/wait.h>
#include <unistd.h>

enum { OPTIONS = PTRACE_O_EXITKILL | PTRACE_O_TRACECLONE | PTRACE_O_TRACEEXEC | PTRACE_O_TRACEFORK | PTRACE_O_TRACEVFORK };

static void run_child(char **words, int go) {
    char byte;
    personality(ADDR_NO_RANDOMIZE); // so that two recordings have the same addresses
    while (read(go, &byte, 1) < 0 && errno == EINTR)
        ;
    close(go);
    execvp(words[0], words);
    _exit(127);
}

static Thread *add_thread(Process *p, pid_t id) {
    for (int k = 0; k < p->thread_count; k++)
        if (p->threads[k].id == id)
            return &p->threads[k];
    if (p->thread_count == MOST_THREADS) {
        p->lost_threads++;
        return NULL;
    }
    Thread *t = &p->threads[p->thread_count++];
    memset(t, 0, sizeof *t);
    t->id = id;
    return t;
}

static void forget(Process *p, Thread *t) { *t = p->threads[--p->thread_count]; }

// The value of the kernel's notes to the program, 0 where it is missing.
static uint64_t note_of(pid_t id, uint64_t type) {
    char path[64];
    uint64_t pair[2];
    snprintf(path, sizeof path, "/proc/%d/auxv", (int)id);
    FILE *f = fopen(path, "r");
    uint64_t value = 0;
    while (f && fread(pair, sizeof pair, 1, f) == 1)
        if (pair[0] == type)
            value = pair[1];
    if (f)
        fclose(f);
    return value;
}

static int open_program(Process *p, const char **why) {
    char path[64];
    snprintf(path, sizeof path, "/proc/%d/mem", (int)p->id);
    p->memory = open(path, O_RDWR | O_CLOEXEC);
    snprintf(path, sizeof path, "/proc/%d/exe", (int)p->id);
    p->image = image_open(path, why);
    if (!p->image)
        return -1;
    p->bias = p->image->moves ? note_of(p->id, AT_ENTRY) - p->image->entry : 0;
    if (p->memory < 0)
        *why = "its memory cannot be read";
    return p->memory < 0 ? -1 : 0;
}

int process_start(Process *p, char **words, const char **why) {
    int go[2], status;
    memset(p, 0, sizeof *p);
    p->memory = -1;
    if (pipe(go) != 0 || (p->id = fork()) < 0) {
        *why = "no process can be made";
        return -1;
    }
    if (p->id == 0) {
        close(go[1]);
        run_child(words, go[0]);
    }
    close(go[0]);
    if (ptrace(PTRACE_SEIZE, p->id, 0, OPTIONS) != 0) {
        *why = errno == EPERM ? "ptrace is not permitted here (see docs/RECORDING.md)" : "ptrace is missing here";
        kill(p->id, SIGKILL);
        close(go[1]);
        return -2;
    }
    close(go[1]); // its read ends, and it goes on to the program
    while (waitpid(p->id, &status, __WALL) == p->id) {
        if (WIFEXITED(status) || WIFSIGNALED(status)) {
            *why = "cannot be run";
            return -1;
        }
        if (status >> 16 == PTRACE_EVENT_EXEC) {
            add_thread(p, p->id);
            return open_program(p, why);
        }
        ptrace(PTRACE_CONT, p->id, 0, WSTOPSIG(status));
    }
    *why = "cannot be run";
    return -1;
}

size_t process_read(const Process *p, uint64_t at, void *into, size_t size) {
    ssize_t n = pread(p->memory, into, size, (off_t)at);
    if (n == (ssize_t)size || size == 0)
        return size;
    size_t page = 4096 - (at & 4095); // what lies before the end of a page may be there alone
    if (n <= 0 && page < size)
        n = pread(p->memory, into, page, (off_t)at);
    return n < 0 ? 0 : (size_t)n;
}

int process_write(const Process *p, uint64_t at, const void *from, size_t size) {
    return pwrite(p->memory, from, size, (off_t)at) == (ssize_t)size ? 0 : -1;
}

int process_registers(const Thread *t, Regs *r) {
    struct user_regs_struct u;
    if (ptrace(PTRACE_GETREGS, t->id, 0, &u) != 0)
        return -1;
    const uint64_t all[SLOTS] = {u.rax, u.rcx, u.rdx, u.rbx, u.rsp, u.rbp, u.rsi, u.rdi, u.r8,  u.r9,
                                 u.r10, u.r11, u.r12, u.r13, u.r14, u.r15, u.rip, u.fs_base, u.gs_base};
    memcpy(r->slot, all, sizeof all);
    r->flags = u.eflags;
    return 0;
}

int process_set_debug(const Thread *t, int which, uint64_t value) {
    return ptrace(PTRACE_POKEUSER, t->id, offsetof(struct user, u_debugreg) + (size_t)which * 8, value) == 0 ? 0 : -1;
}

uint64_t process_debug(const Thread *t, int which) {
    return (uint64_t)ptrace(PTRACE_PEEKUSER, t->id, offsetof(struct user, u_debugreg) + (size_t)which * 8, 0);
}

int process_resume(Thread *t, int request) {
    int signal = t->signal;
    t->signal = 0;
    t->runs = ptrace(request, t->id, 0, signal) == 0;
    return t->runs ? 0 : -1;
}

// Another process was made: it is let go, and only counted.
static void let_go(Process *p, pid_t id) {
    int status;
    p->forks++;
    if (waitpid(id, &status, __WALL) == id)
        ptrace(PTRACE_DETACH, id, 0, 0);
}

static Stop event_stop(Process *p, Thread *t, int event) {
    unsigned long made = 0;
    ptrace(PTRACE_GETEVENTMSG, t->id, 0, &made);
    if (event == PTRACE_EVENT_CLONE) {
        int status;
        Thread *made_thread = add_thread(p, (pid_t)made);
        if (waitpid((pid_t)made, &status, __WALL) == (pid_t)made && !made_thread)
            ptrace(PTRACE_DETACH, made, 0, 0);
    }
    if (event == PTRACE_EVENT_FORK || event == PTRACE_EVENT_VFORK)
        let_go(p, (pid_t)made);
    return event == PTRACE_EVENT_EXEC ? CHANGED : BEFORE;
}

// What a trap was: docs/RECORDING.md, "Signals".
static Stop trap_stop(Thread *t) {
    siginfo_t about;
    memset(&about, 0, sizeof about);
    if (ptrace(PTRACE_GETSIGINFO, t->id, 0, &about) != 0)
        return BEFORE;
    switch (about.si_code) {
    case TRAP_TRACE: case TRAP_BRKPT: return STEPPED;
    case TRAP_HWBKPT: return WATCHED;
    case SIGTRAP: return AT_HANDLER; // the handler's first instruction: nothing ran
    default: return TRAPPED;
    }
}

static Stop stop_of(Process *p, Thread *t, int status) {
    if (!WIFSTOPPED(status)) {
        if (t->id == p->id) {
            p->ended = 1;
            p->status = status;
        }
        forget(p, t);
        return GONE;
    }
    if (status >> 16 == PTRACE_EVENT_STOP)
        return BEFORE;
    if (status >> 16)
        return event_stop(p, t, status >> 16);
    if (WSTOPSIG(status) != SIGTRAP) {
        t->signal = WSTOPSIG(status);
        return BEFORE;
    }
    Stop stop = trap_stop(t);
    if (stop == TRAPPED)
        t->signal = SIGTRAP; // the program's own
    return stop;
}

Stop process_wait(Process *p, Thread *t, int *ready, int wait) {
    int status;
    pid_t got;
    do
        got = waitpid(t->id, &status, __WALL | (wait ? 0 : WNOHANG));
    while (got < 0 && errno == EINTR);
    *ready = got != 0;
    if (got == 0)
        return BEFORE;
    t->runs = 0;
    if (got < 0) {
        if (t->id == p->id)
            p->ended = 1;
        forget(p, t);
        return GONE;
    }
    return stop_of(p, t, status);
}

void process_release(Process *p) {
    for (int k = 0; k < p->thread_count; k++) {
        Thread *t = &p->threads[k];
        int status = 0;
        if (t->runs && ptrace(PTRACE_INTERRUPT, t->id, 0, 0) == 0 && waitpid(t->id, &status, __WALL) == t->id && WIFSTOPPED(status) &&
            !(status >> 16) && WSTOPSIG(status) != SIGTRAP)
            t->signal = WSTOPSIG(status); // it came first, and is not lost
        process_set_debug(t, 7, 0);
        ptrace(PTRACE_DETACH, t->id, 0, t->signal);
    }
    while (!p->ended && waitpid(p->id, &p->status, 0) < 0 && errno == EINTR)
        ;
    p->ended = 1;
    if (p->memory >= 0)
        close(p->memory);
    image_close(p->image);
    for (int k = 0; k < p->module_count; k++)
        image_close(p->modules[k].image);
}
