// Records every instruction, one thread at a time.
#include "recorder.h"
#include <signal.h>
#include <stdlib.h>
#include <sys/ptrace.h>
#include <time.h>

enum { TURN = 16, PATIENCE = 100 }; // steps of a thread in its turn; looks at a thread that is in the kernel

typedef struct {
    Regs before;
    Site *site; // whose step is under way; NULL for none
} Step;

typedef struct {
    Recorder r;
    Step steps[MOST_THREADS]; // by the place of the thread
    uint64_t to, max;
    const char *ended; // why the recording ends; NULL while it goes on
} Run;

static int is_pushf(const Site *s) { return s->e.length && s->code[s->e.length - 1] == 0x9c && s->e.length <= 2; }

// The program would see that it is stepped: the flag goes from what was pushed.
static void hide_trap_flag(Run *run, const Thread *t) {
    Regs now;
    uint8_t byte;
    if (process_registers(t, &now) != 0)
        return;
    uint64_t at = now.slot[4] + 1;
    if (process_read(&run->r.process, at, &byte, 1) == 1) {
        byte &= 0xfe;
        process_write(&run->r.process, at, &byte, 1);
    }
}

static void stepped(Run *run, Thread *t, Step *s) {
    recorder_stepped(&run->r, t, s->site, &s->before);
    if (is_pushf(s->site))
        hide_trap_flag(run, t);
    s->site = NULL;
    if (run->max && run->r.out.records >= run->max)
        run->ended = "as many as were asked for";
}

// Takes what a thread's stop means for its step. A step that did not happen is tried again in the thread's next turn.
static void take_stop(Run *run, Thread *t, Stop stop) {
    Process *p = &run->r.process;
    Step *s = &run->steps[t - p->threads];
    if (stop == GONE) { // its place was taken by the last one
        *s = run->steps[p->thread_count];
        if (p->ended || !p->thread_count)
            run->ended = "the program ended";
        return;
    }
    if (stop == CHANGED) {
        run->ended = "the program became another one (exec)";
        return;
    }
    if ((stop == STEPPED || stop == WATCHED) && s->site)
        stepped(run, t, s);
    else if (stop == AT_HANDLER || (stop == BEFORE && t->signal))
        s->site = NULL;
}

static void wait_in_kernel(Run *run, Thread *t) {
    const struct timespec moment = {0, 20000};
    for (int k = 0; k < PATIENCE; k++) {
        int ready;
        Stop stop = process_wait(&run->r.process, t, &ready, 0);
        if (ready) {
            take_stop(run, t, stop);
            return;
        }
        nanosleep(&moment, NULL);
    }
}

// A thread that cannot be asked has gone, or is going: what became of it is waited for.
static void lost(Run *run, Thread *t) {
    int ready;
    take_stop(run, t, process_wait(&run->r.process, t, &ready, 1));
}

// Sets a thread going for one instruction.
static void one_step(Run *run, Thread *t) {
    Process *p = &run->r.process;
    Step *s = &run->steps[t - p->threads];
    if (!s->site) { // else its system call goes on
        if (process_registers(t, &s->before) != 0) {
            lost(run, t);
            return;
        }
        if (run->to && s->before.slot[SLOT_RIP] == run->to) {
            run->ended = "it came to where it was to end";
            return;
        }
        s->site = recorder_site(&run->r, &s->before);
        if (!s->site) {
            run->ended = "there is no memory left";
            return;
        }
    }
    if (t->signal)
        recorder_signal(&run->r, t);
    int in_kernel = s->site->e.is_syscall && p->thread_count > 1, ready;
    if (process_resume(t, PTRACE_SINGLESTEP) != 0) {
        lost(run, t);
        return;
    }
    if (in_kernel)
        wait_in_kernel(run, t);
    else
        take_stop(run, t, process_wait(p, t, &ready, 1));
}

// Threads that were left in the kernel: whether one has come back. Where nobody else can run it is waited for.
static void look_at_waiting(Run *run, int nobody_runs) {
    Process *p = &run->r.process;
    const struct timespec moment = {0, 200000};
    for (int k = 0; k < p->thread_count && !run->ended; k++) {
        int ready;
        Thread *t = &p->threads[k];
        if (!t->runs)
            continue;
        Stop stop = process_wait(p, t, &ready, 0);
        if (ready)
            take_stop(run, t, stop);
    }
    if (nobody_runs)
        nanosleep(&moment, NULL);
}

static void step_all(Run *run) {
    Process *p = &run->r.process;
    for (int turn = 0; !run->ended && p->thread_count; turn++) {
        int ran = 0;
        Thread *t = &p->threads[turn % p->thread_count];
        pid_t id = t->id;
        int alone = p->thread_count == 1;
        for (int k = 0; (alone || k < TURN) && !run->ended && !recorder_interrupted && t < p->threads + p->thread_count && t->id == id && !t->runs; k++) {
            one_step(run, t);
            ran = 1;
            alone = p->thread_count == 1;
        }
        if (recorder_interrupted)
            run->ended = "interrupted";
        int resting = !ran && turn % p->thread_count == p->thread_count - 1;
        if (p->thread_count > 1 || !ran)
            look_at_waiting(run, resting);
    }
}

int record_run(const Asked *asked) {
    Regs regs;
    Run *run = calloc(1, sizeof *run);
    if (!run)
        return complain(1, "there is no memory left", NULL);
    int status = recorder_begin(&run->r, asked, &regs);
    run->max = asked->max;
    if (!status && asked->to && find_place(&run->r.process, asked->to, &run->to) != 0) {
        kill(run->r.process.id, SIGKILL);
        status = complain(1, "there is no such function in the program", asked->to);
    }
    if (!status) {
        step_all(run);
        status = recorder_end(&run->r, asked, run->ended ? run->ended : "the program ended");
    }
    free(run);
    return status;
}
