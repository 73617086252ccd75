// The third witness: all writable memory of the program before and after a step.
#include "witness.h"
#include <stdio.h>
#include <stdlib.h>
#include <string.h>
#include <sys/ptrace.h>

enum { MOST_BYTES = 1 << 20 };

void pages_free(Pages *pages) {
    for (int k = 0; k < pages->count; k++) {
        free(pages->areas[k].was);
        free(pages->areas[k].is);
    }
    memset(pages, 0, sizeof *pages);
}

static void add(Pages *pages, const Process *p, uint64_t start, uint64_t end) {
    size_t size = end - start > MOST_BYTES ? MOST_BYTES : (size_t)(end - start);
    pages->left_out += end - start - size;
    if (pages->count == MOST_AREAS) {
        pages->left_out += size;
        return;
    }
    Area a = {start, size, malloc(size), malloc(size)};
    if (!a.was || !a.is || process_read(p, start, a.was, size) != size) {
        free(a.was);
        free(a.is);
        return;
    }
    pages->areas[pages->count++] = a;
}

void pages_find(Pages *pages, const Process *p) {
    char path[64], line[512], rights[8];
    unsigned long long start, end;
    pages_free(pages);
    snprintf(path, sizeof path, "/proc/%d/maps", (int)p->id);
    FILE *maps = fopen(path, "r");
    while (maps && fgets(line, sizeof line, maps))
        if (sscanf(line, "%llx-%llx %7s", &start, &end, rights) == 3 && rights[0] == 'r' && rights[1] == 'w' && end > start)
            add(pages, p, start, end);
    if (maps)
        fclose(maps);
}

static uint64_t changed_in(const Area *a, const Accesses *may) {
    if (!memcmp(a->was, a->is, a->size))
        return 0;
    for (size_t k = 0; k < a->size; k++)
        if (a->was[k] != a->is[k] && !accesses_touch(may, a->start + k, 1))
            return a->start + k;
    return 0;
}

uint64_t pages_changed(Pages *pages, const Process *p, const Accesses *may) {
    uint64_t found = 0;
    for (int k = 0; k < pages->count; k++) {
        Area *a = &pages->areas[k];
        if (process_read(p, a->start, a->is, a->size) != a->size)
            continue;
        if (!found && may)
            found = changed_in(a, may);
        uint8_t *was = a->was;
        a->was = a->is;
        a->is = was;
    }
    return found;
}
