// How a recording begins and ends.
#include "recorder.h"
#include <signal.h>
#include <stdio.h>
#include <stdlib.h>
#include <string.h>
#include <sys/wait.h>

volatile sig_atomic_t recorder_interrupted;

static void interrupt(int signal) {
    (void)signal;
    recorder_interrupted = 1;
}

int complain(int status, const char *words, const char *name) {
    fprintf(stderr, name ? "machhurel record: %s: %s\n" : "machhurel record: %s%s\n", name ? name : "", words);
    return status;
}

// A function by name, a place by number.
int find_place(const Process *p, const char *name, uint64_t *address) {
    char *end;
    const Symbol *s = image_symbol(p->image, name);
    *address = s ? p->bias + s->value : strtoull(name, &end, 0);
    return s || (!*end && end != name) ? 0 : -1;
}

static int find_begin(const Process *p, const Asked *asked, uint64_t *address) {
    if (asked->from)
        return find_place(p, asked->from, address);
    if (find_place(p, "main", address) != 0)
        *address = p->bias + p->image->entry;
    return 0;
}

static int start(Recorder *r, const Asked *asked) {
    const char *why = NULL;
    uint64_t begin;
    int started = process_start(&r->process, asked->program, &why);
    if (started != 0)
        return complain(started == -2 ? 2 : 1, why, asked->program[0]);
    if (find_begin(&r->process, asked, &begin) != 0) {
        kill(r->process.id, SIGKILL);
        return complain(1, "there is no such function in the program", asked->from);
    }
    if (process_run_to(&r->process, begin, &why) != 0)
        return complain(1, why, asked->program[0]);
    return 0;
}

static int find_variables(Recorder *r, const Asked *asked, const Regs *regs) {
    const char *why;
    for (int k = 0; k < asked->watch_count; k++)
        if (variables_add(&r->variables, &r->process, regs, asked->watch[k], &why) != 0)
            return complain(1, why, asked->watch[k]);
    if (!asked->watch_count)
        variables_add_all(&r->variables, &r->process, regs);
    return 0;
}

static void tell_begin(Recorder *r, const Asked *asked) {
    FILE *side = r->out.side;
    fputs("program", side);
    for (char **word = asked->program; *word; word++) {
        fputc(' ', side);
        out_word(&r->out, *word);
    }
    fputc('\n', side);
    for (int k = 0; k < r->variables.count; k++) {
        const Variable *v = &r->variables.all[k];
        fputs("variable ", side);
        out_word(&r->out, v->name);
        fprintf(side, " 0x%llx %u 0x%llx\n", (unsigned long long)v->address, v->length, (unsigned long long)v->value);
    }
    if (r->variables.left_out)
        fprintf(side, "note %d variables more have no room here: name those that matter with --watch\n", r->variables.left_out);
}

int recorder_begin(Recorder *r, const Asked *asked, Regs *regs) {
    int status = start(r, asked);
    if (status)
        return status;
    struct sigaction ends = {.sa_handler = interrupt};
    sigaction(SIGINT, &ends, NULL); // Ctrl-C ends the recording; the program gets it too
    sigaction(SIGTERM, &ends, NULL);
    if (process_registers(&r->process.threads[0], regs) != 0)
        return complain(1, "its registers cannot be read", asked->program[0]);
    status = find_variables(r, asked, regs);
    if (!status && out_open(&r->out, asked->name, asked->full) != 0)
        status = complain(1, "cannot be written", asked->name);
    if (status)
        kill(r->process.id, SIGKILL);
    else
        tell_begin(r, asked);
    return status;
}

static void free_sites(Recorder *r) {
    for (int k = 0; k < BUCKETS; k++)
        for (Site *s = r->sites[k], *next; s; s = next) {
            next = s->next;
            free(s);
        }
}

int recorder_end(Recorder *r, const Asked *asked, const char *words) {
    Process *p = &r->process;
    FILE *side = r->out.side;
    if (p->forks)
        fprintf(side, "note %u other processes were made, which are not followed\n", p->forks);
    if (p->lost_threads)
        fprintf(side, "note %d threads were not followed\n", p->lost_threads);
    fprintf(side, "end %llu %s\n", (unsigned long long)r->out.records, words);
    int bad = out_close(&r->out);
    fprintf(stderr, "machhurel record: %llu records (%llu exact, %llu with registers missing, %llu complex), %llu register files, %llu signals: %s\n",
            (unsigned long long)r->out.records, (unsigned long long)r->by_how[EXACT], (unsigned long long)r->by_how[REGISTERS],
            (unsigned long long)r->by_how[COMPLEX], (unsigned long long)r->out.files, (unsigned long long)r->signals, words);
    signal(SIGINT, SIG_DFL);
    signal(SIGTERM, SIG_DFL);
    if (recorder_interrupted && !p->ended)
        kill(p->id, SIGTERM); // whoever ends the recorder does not want the program either
    process_release(p);
    free_sites(r);
    return bad ? complain(1, "could not be written whole", asked->name) : 0;
}
