// A recording under way.
#ifndef MACHHUREL_RECORDER_H
#define MACHHUREL_RECORDER_H
#include "out.h"
#include "process.h"
#include "watch.h"
#include <signal.h>

enum { BUCKETS = 1 << 14 };

// An instruction at a place, with the bytes that were found there.
typedef struct Site {
    uint64_t pc;
    uint8_t code[CODE_BYTES];
    size_t code_bytes;
    uint32_t number;
    uint64_t steps;
    Encoded e;
    struct Site *next;
} Site;

typedef struct {
    Process process;
    Out out;
    Variables variables;
    Site *sites[BUCKETS];
    uint32_t site_count;
    uint64_t steps, by_how[3], signals, files;
    pid_t last_thread;
} Recorder;

typedef struct {
    const char *from, *to, *name;
    const char *watch[MOST_VARIABLES];
    int watch_count;
    uint64_t max, after;
    int full, spoil, emulated;
    char **program;
} Asked;

int record_run(const Asked *asked);
int record_arm(const Asked *asked);
int record_check(const Asked *asked);

extern volatile sig_atomic_t recorder_interrupted; // the recording is to end, in order

// session.c, site.c, told.c
int recorder_begin(Recorder *r, const Asked *asked, Regs *regs); // 0, or the exit status
int recorder_end(Recorder *r, const Asked *asked, const char *words);
Site *recorder_site(Recorder *r, const Regs *regs);               // NULL where there is no memory left
void recorder_stepped(Recorder *r, const Thread *t, Site *site, const Regs *before);
void recorder_signal(Recorder *r, const Thread *t);
int find_place(const Process *p, const char *name, uint64_t *address);
int complain(int status, const char *words, const char *name);
#endif
