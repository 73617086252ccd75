// Damaged program files must not stop the reader: bytes of a good one are changed at random, and everything that it says is asked for.
// usage: damaged FILE SEED COUNT
#include "../image.h"
#include "any.h"
#include <stdio.h>
#include <stdlib.h>
#include <string.h>
#include <sys/mman.h>
#include <unistd.h>

static void damage(uint8_t *bytes, size_t size, const size_t *places, size_t count) {
    for (uint64_t n = 1 + any() % 12; n > 0; n--) {
        size_t at = any() % 3 ? places[any() % count] + any() % 96 : any() % size;
        if (at < size)
            bytes[at] = (uint8_t)(any() % 3 ? any() : any() % 2 ? 0xff : 0);
    }
}

// Whether it could be read at all.
static int ask(const char *path) {
    const char *why;
    uint64_t offset, bytes;
    Image *image = image_open(path, &why);
    if (!image)
        return 0;
    for (uint64_t at = 0; at < 0x8000; at += 7) {
        const Line *line = image_line(image, at);
        const Symbol *symbol = image_function(image, at);
        if ((line && strlen(line->file) > 1000000) || (symbol && strlen(symbol->name) > 1000000))
            printf("long\n");
    }
    image_symbol(image, "position");
    image_member(image, "frame.pos", &offset, &bytes);
    image_close(image);
    return 1;
}

int main(int count, char **words) {
    if (count != 4)
        return 2;
    FILE *f = fopen(words[1], "rb");
    static uint8_t good[1 << 20], bad[1 << 20];
    size_t size = f ? fread(good, 1, sizeof good, f) : 0;
    if (size < 4096)
        return 2;
    fclose(f);
    good[18] = 62; // any processor's program will do: it is read as one for x86-64
    good[19] = 0;
    // the headers, and where the sections with names and lines begin
    size_t places[64] = {0, 64}, known = 2;
    uint64_t table;
    memcpy(&table, good + 40, 8);
    for (size_t k = 0; k < 40 && known < 60 && table + 64 * k + 64 < size; k++) {
        uint64_t at;
        memcpy(&at, good + table + 64 * k + 24, 8);
        places[known++] = (size_t)table + 64 * k;
        places[known++] = (size_t)at;
    }
    state = strtoull(words[2], NULL, 0) * 2654435761u + 1;
    long read = 0;
    int fd = memfd_create("damaged", 0);
    char path[32];
    snprintf(path, sizeof path, "/proc/self/fd/%d", fd);
    for (long k = atol(words[3]); k > 0 && fd >= 0; k--) {
        size_t length = any() % 8 ? size : any() % size;
        memcpy(bad, good, size);
        damage(bad, size, places, known);
        if (ftruncate(fd, 0) || pwrite(fd, bad, length, 0) != (ssize_t)length)
            return 2;
        read += ask(path);
    }
    printf("%ld read without harm\n", read);
    return read == 0; // all refused at once would show nothing
}
