// Which file is mapped at an address.
#include "process.h"
#include <stdio.h>
#include <string.h>

typedef struct {
    uint64_t start, end, offset;
    char path[256];
} Mapping;

static int read_mapping(FILE *maps, Mapping *m) {
    char line[512], rights[8];
    unsigned long long start, end, offset;
    m->path[0] = 0;
    if (!fgets(line, sizeof line, maps))
        return 0;
    int n = sscanf(line, "%llx-%llx %7s %llx %*s %*s %255s", &start, &end, rights, &offset, m->path);
    m->start = start;
    m->end = end;
    m->offset = offset;
    return n >= 4;
}

// The file's lowest mapping tells how far it was moved.
static void find_start(Process *p, Module *found) {
    char path[64];
    Mapping m;
    snprintf(path, sizeof path, "/proc/%d/maps", (int)p->id);
    FILE *maps = fopen(path, "r");
    while (maps && read_mapping(maps, &m))
        if (!strcmp(m.path, found->path) && m.offset == 0) {
            found->bias = m.start;
            break;
        }
    if (maps)
        fclose(maps);
}

static int find_mapping(Process *p, uint64_t address, Module *found) {
    char path[64];
    Mapping m;
    int is_there = 0;
    snprintf(path, sizeof path, "/proc/%d/maps", (int)p->id);
    FILE *maps = fopen(path, "r");
    while (maps && !is_there && read_mapping(maps, &m))
        if (address >= m.start && address < m.end) {
            found->start = m.start;
            found->end = m.end;
            memcpy(found->path, m.path, sizeof m.path);
            is_there = m.path[0] == '/';
        }
    if (maps)
        fclose(maps);
    return is_there;
}

const Module *process_module(Process *p, uint64_t address) {
    for (int k = 0; k < p->module_count; k++)
        if (address >= p->modules[k].start && address < p->modules[k].end)
            return &p->modules[k];
    Module found;
    const char *why;
    memset(&found, 0, sizeof found);
    if (p->module_count == MOST_MODULES || !find_mapping(p, address, &found))
        return NULL;
    found.image = image_open(found.path, &why);
    if (found.image && found.image->moves) {
        find_start(p, &found);
        found.bias -= found.image->first;
    }
    p->modules[p->module_count] = found;
    return &p->modules[p->module_count++];
}
