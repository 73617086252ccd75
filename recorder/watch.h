// Watched variables: where they are, and what is in them.
#ifndef MACHHUREL_WATCH_H
#define MACHHUREL_WATCH_H
#include "process.h"

enum { MOST_VARIABLES = 256 };

typedef struct {
    char name[128];
    uint64_t address;
    unsigned length; // 1 to 8
    uint64_t value;  // the last that is known
    int is_readable;
} Variable;

typedef struct {
    Variable all[MOST_VARIABLES];
    int count;
    int left_out; // variables of the program for which there was no room
} Variables;

// Adds `name`, `name.member`, `name+offset`, each with or without `:length`. 0, or -1 and why.
int variables_add(Variables *v, const Process *p, const Regs *regs, const char *words, const char **why);
// Adds all variables of 1 to 8 bytes that the program's own file names.
void variables_add_all(Variables *v, const Process *p, const Regs *regs);
int variable_read(const Process *p, const Variable *v, uint64_t *value); // 1 where it could be read
#endif
