// The user's story: a position of 64 bits, written by the control task, read by the sampler's interrupt (a timer signal). In two stores,
// or with -DWHOLE in one, with -DREP byte by byte, with -DKEEP=__thread in thread-local memory. docs/RECORDING.md tells the story by line.
#define _GNU_SOURCE
#include <signal.h>
#include <stdint.h>
#include <stdio.h>
#include <stdlib.h>
#include <string.h>
#include <sys/time.h>

#ifndef KEEP
#define KEEP
#endif

// A controller of 32 bits has no store of all of it, and code that was made for one writes it in halves.
typedef union { int64_t whole; struct { uint32_t lo, hi; } half; } Position;
KEEP volatile Position position;                                         // what the live viewer draws
struct __attribute__((packed)) Frame { char head[59]; int64_t pos; char tail[61]; } frame __attribute__((aligned(64)));   // fieldbus frame: over a line's end
volatile double position_mm;                                             // the same in millimetres
typedef struct { int64_t pos, speed; } __attribute__((aligned(16))) Pair; // two neighbours that one vector store writes
Pair pair;

#define ALONE __attribute__((noinline, noclone))
static volatile int64_t samples[4096]; static volatile unsigned sampled;
static volatile int64_t true_before, true_position;
volatile int64_t shown; volatile unsigned torn_seen;

static void on_sample(int sig) {                                         // the viewer's sampling interrupt
    (void)sig;
    int64_t before = true_before, now = true_position;
    int64_t p = position.whole;
    shown = p;
    samples[sampled++ & 4095] = p;
    if (p != before && p != now) torn_seen++;                            // a position that never existed
}

ALONE void set_position(int64_t p) {
#if defined WHOLE
    position.whole = p;
#elif !defined REP
    position.half.lo = (uint32_t)p;
    position.half.hi = (uint32_t)((uint64_t)p >> 32);
#else
    void *d = (void *)&position; const void *s = &p; long n = sizeof p;
    __asm__ volatile("rep movsb" : "+D"(d), "+S"(s), "+c"(n) :: "memory");
#endif
}
ALONE void send_frame(int64_t p) { memcpy(&frame.pos, &p, sizeof p); }
ALONE void set_mm(int64_t p) { position_mm = (double)p * 0.001; }
ALONE void set_pair(int64_t p, int64_t v) { pair = (Pair){p, v}; }

ALONE void control_step(int64_t *p, int64_t *speed, int64_t target) {
    int64_t e = target - *p;
    *speed += (e >> 6) - (*speed >> 3);
    *p += *speed;
}
ALONE void trace_begin(void) { __asm__ volatile("" ::: "memory"); }
ALONE void trace_end(void) { __asm__ volatile("" ::: "memory"); }

int main(int argc, char **argv) {
    long rounds = argc > 1 ? atol(argv[1]) : 100;
    long period = argc > 2 ? atol(argv[2]) : 1500;                       // microseconds; longer where stepping is slow
    struct sigaction sa = {.sa_handler = on_sample, .sa_flags = SA_RESTART};
    sigaction(SIGALRM, &sa, NULL);
    int64_t p = 0x1f0000000, speed = 0x8000000;
    struct itimerval it = {{period / 1000000, period % 1000000}, {period / 1000000, period % 1000000}};
    setitimer(ITIMER_REAL, &it, NULL);
    trace_begin();
    for (long t = 0; t < rounds; t++) {
        control_step(&p, &speed, 0x700000000LL + (t % 64 < 32 ? 0x200000000LL : -0x200000000LL));
        true_before = true_position;
        true_position = p;
        set_position(p);
        send_frame(p);
        set_mm(p);
        set_pair(p, speed);
    }
    trace_end();
    memset(&it, 0, sizeof it); setitimer(ITIMER_REAL, &it, NULL);
    printf("rounds %ld, samples %u, torn samples %u\n", rounds, sampled, torn_seen);
    return 0;
}
