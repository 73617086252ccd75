// machhurel-record: records what a program does, for `machhurel`.
#include "recorder.h"
#include <errno.h>
#include <stdio.h>
#include <stdlib.h>
#include <string.h>

static const char USAGE[] =
    "usage: machhurel record run [--from FUNCTION] [--to FUNCTION] [--max N] [--watch NAME].. [--full] -o X -- PROGRAM ARGUMENTS\n"
    "       machhurel record arm --watch NAME [--after N] [--from FUNCTION] [--max N] -o X -- PROGRAM ARGUMENTS\n"
    "       machhurel record check [--from FUNCTION] [--max N] [--spoil] [--emulated] [-- PROGRAM ARGUMENTS]\n\n"
    "run steps through every instruction; arm runs at full speed, and stops where the variable is touched; check asks whether the\n"
    "records are right on this machine. They write X.trace and X.side, which `machhurel watch X NAME` reads.\n\n"
    "  --from FUNCTION  begin there; main if nothing is said        --to FUNCTION  end there\n"
    "  --max N          end after N records                         --full         all registers before each record\n"
    "  --watch NAME     a variable, as position, frame.pos, frame+59:8; all of 1 to 8 bytes if none is named\n"
    "  --after N        step through N instructions behind each touch\n"
    "  --spoil          judge records that are spoilt on purpose: each must be noticed\n"
    "  --emulated       never a debug register in a single step: QEMU hangs there\n";

static int is_number(const char *word, uint64_t *number) {
    char *end;
    errno = 0;
    *number = strtoull(word, &end, 0);
    return *word >= '0' && *word <= '9' && !*end && !errno;
}

// An option with its value; 0 where it is wrong.
static int take_option(Asked *asked, const char *name, char *value) {
    if (!value)
        return 0;
    if (!strcmp(name, "--from"))
        asked->from = value;
    else if (!strcmp(name, "--to"))
        asked->to = value;
    else if (!strcmp(name, "-o"))
        asked->name = value;
    else if (!strcmp(name, "--max"))
        return is_number(value, &asked->max);
    else if (!strcmp(name, "--after"))
        return is_number(value, &asked->after);
    else if (!strcmp(name, "--watch") && asked->watch_count < MOST_VARIABLES)
        asked->watch[asked->watch_count++] = value;
    else
        return 0;
    return 1;
}

static int *flag_of(Asked *asked, const char *word) {
    return !strcmp(word, "--full") ? &asked->full : !strcmp(word, "--spoil") ? &asked->spoil : !strcmp(word, "--emulated") ? &asked->emulated : NULL;
}

// Everything up to `--`; 0 where a word is wrong.
static int take_words(Asked *asked, char **words) {
    static char *nothing[] = {NULL};
    asked->program = nothing;
    while (*words) {
        if (!strcmp(*words, "--")) {
            asked->program = words + 1;
            return 1;
        }
        int *flag = flag_of(asked, *words);
        if (flag) {
            *flag = 1;
            words++;
        } else if (take_option(asked, words[0], words[1])) {
            words += 2;
        } else {
            fprintf(stderr, "machhurel record: %s: not understood\n", *words);
            return 0;
        }
    }
    return 1;
}

static int wrong(const char *words) {
    fprintf(stderr, "machhurel record: %s (`machhurel record --help` says more)\n", words);
    return 2;
}

int main(int count, char **words) {
    Asked asked;
    memset(&asked, 0, sizeof asked);
    if (count < 2 || !strcmp(words[1], "--help") || !strcmp(words[1], "-h")) {
        fputs(USAGE, count < 2 ? stderr : stdout);
        return count < 2 ? 2 : 0;
    }
    if (!take_words(&asked, words + 2))
        return wrong("the words cannot be taken");
    int is_check = !strcmp(words[1], "check");
    if (!is_check && (!*asked.program || !asked.name))
        return wrong("expected -o X -- PROGRAM ARGUMENTS");
    if (!strcmp(words[1], "run"))
        return record_run(&asked);
    if (!strcmp(words[1], "arm"))
        return asked.watch_count ? record_arm(&asked) : wrong("arm needs --watch NAME");
    if (is_check)
        return record_check(&asked);
    return wrong("expected run, arm or check");
}
