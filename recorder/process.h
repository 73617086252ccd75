// The program that is recorded: its threads under ptrace, its memory, and what its addresses are called.
#ifndef MACHHUREL_PROCESS_H
#define MACHHUREL_PROCESS_H
#include "image.h"
#include "record.h"
#include <sys/types.h>

enum { MOST_THREADS = 256, MOST_MODULES = 64 };

typedef struct {
    pid_t id;
    int runs;     // it was set going, and has not stopped since
    int signal;   // to deliver when it is set going
    int armed;    // its debug registers are set
} Thread;

typedef struct {
    uint64_t start, end, bias;
    char path[256];
    Image *image; // NULL where it could not be read
} Module;

typedef struct {
    pid_t id;
    int memory; // /proc/ID/mem
    Thread threads[MOST_THREADS];
    int thread_count;
    int lost_threads; // more than there is room for
    unsigned forks;   // other processes that it made, which are not followed
    int ended, status; // as waitpid says it
    Image *image;
    uint64_t bias; // what is added to the addresses of its file
    Module modules[MOST_MODULES];
    int module_count;
} Process;

// How a thread stopped.
typedef enum { STEPPED, AT_HANDLER, BEFORE, GONE, WATCHED, TRAPPED, CHANGED } Stop;

int process_start(Process *p, char **words, const char **why); // stopped before its first instruction; 0, or -1 and why
int process_run_to(Process *p, uint64_t address, const char **why); // 0, or -1 and why; all threads are stopped then
int process_step_back(Thread *t, uint64_t address); // whether it stands behind a breakpoint there; then it is set back to before it
int process_resume(Thread *t, int request);
Thread *process_next(Process *p); // the next thread that has stopped or ended, its stop not yet taken
Stop process_wait(Process *p, Thread *t, int *ready, int wait); // *ready: it has stopped
void process_release(Process *p); // lets it run on, unwatched, and waits for its end
int process_registers(const Thread *t, Regs *regs);
size_t process_read(const Process *p, uint64_t at, void *into, size_t size); // how many bytes could be read
int process_write(const Process *p, uint64_t at, const void *from, size_t size);
int process_set_debug(const Thread *t, int which, uint64_t value);
uint64_t process_debug(const Thread *t, int which);
const Module *process_module(Process *p, uint64_t address); // NULL where no file is mapped there
#endif
