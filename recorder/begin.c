// Lets the program run at full speed up to the place at which the recording begins.
#include "process.h"
#include <errno.h>
#include <signal.h>
#include <string.h>
#include <sys/ptrace.h>
#include <sys/user.h>
#include <sys/wait.h>

static Thread *thread_of(Process *p, pid_t id) {
    for (int k = 0; k < p->thread_count; k++)
        if (p->threads[k].id == id)
            return &p->threads[k];
    return NULL;
}

int process_step_back(Thread *t, uint64_t address) {
    struct user_regs_struct u;
    if (ptrace(PTRACE_GETREGS, t->id, 0, &u) != 0 || u.rip != address + 1)
        return 0;
    u.rip = address;
    ptrace(PTRACE_SETREGS, t->id, 0, &u);
    t->signal = 0;
    return 1;
}

static void stop_others(Process *p, uint64_t address) {
    for (int k = 0; k < p->thread_count; k++) {
        Thread *t = &p->threads[k];
        int ready;
        if (!t->runs || ptrace(PTRACE_INTERRUPT, t->id, 0, 0) != 0)
            continue;
        Stop stop = process_wait(p, t, &ready, 1);
        if (stop == GONE)
            k--;
        else if (stop == TRAPPED)
            process_step_back(t, address);
    }
}

static void run_all(Process *p) {
    for (int k = 0; k < p->thread_count; k++)
        if (!p->threads[k].runs)
            process_resume(&p->threads[k], PTRACE_CONT);
}

Thread *process_next(Process *p) {
    siginfo_t about;
    memset(&about, 0, sizeof about);
    while (waitid(P_ALL, 0, &about, WEXITED | WSTOPPED | WNOWAIT | __WALL) != 0)
        if (errno != EINTR)
            return NULL;
    return thread_of(p, about.si_pid);
}

int process_run_to(Process *p, uint64_t address, const char **why) {
    uint8_t was, trap = 0xcc;
    if (process_read(p, address, &was, 1) != 1 || process_write(p, address, &trap, 1) != 0) {
        *why = "no breakpoint can be set where it begins";
        return -1;
    }
    for (;;) {
        int ready;
        run_all(p);
        Thread *t = process_next(p);
        Stop stop = t ? process_wait(p, t, &ready, 1) : GONE;
        if (p->ended || !p->thread_count || stop == CHANGED || !t) {
            *why = "it ended before the recording began";
            return -1;
        }
        if (stop == TRAPPED && process_step_back(t, address)) {
            process_write(p, address, &was, 1);
            stop_others(p, address);
            return 0;
        }
    }
}
