// Ordinary code for `machhurel record check`: integers, floating point, strings, and loops that a compiler makes vectors of.
#include <math.h>
#include <stdint.h>
#include <stdio.h>
#include <stdlib.h>
#include <string.h>

enum { N = 64 };
static int32_t whole[N], more[N];
static float real[N], other[N];
static double precise[N];
static char text[256], copy[256];
static uint64_t state = 88172645463325252u;

static uint64_t next(void) { return state ^= state << 13, state ^= state >> 7, state ^= state << 17; }

static void integers(void) {
    for (int i = 0; i < N; i++) {
        whole[i] = (int32_t)next();
        more[i] = whole[i] / (1 + (i & 7)) + (whole[i] >> 3) * 5;
    }
    uint64_t sum = 0;
    for (int i = 0; i < N; i++)
        sum = (sum << 5 | sum >> 59) + (uint64_t)(int64_t)more[i] * (uint32_t)whole[i];
    more[0] = (int32_t)sum;
}

static void reals(void) {
    for (int i = 0; i < N; i++) {
        real[i] = (float)whole[i] * 0.5f;
        other[i] = real[i] * real[i] + 1.0f;
        precise[i] = sqrt((double)other[i]) - (double)real[i];
    }
    for (int i = 0; i < N; i++)
        if (whole[i] & 1)
            other[i] = -real[i];
}

static int compare(const void *a, const void *b) { return *(const int32_t *)a < *(const int32_t *)b ? -1 : *(const int32_t *)a > *(const int32_t *)b; }

static void strings(void) {
    snprintf(text, sizeof text, "%d of %lu: %.3f %s", whole[3], (unsigned long)state, precise[2], "position");
    memcpy(copy, text, strlen(text) + 1);
    memmove(copy + 3, copy, 100);
    memset(copy + 120, 'x', 77);
    if (strchr(copy, 'p') && strcmp(text, copy) && memchr(text, '.', sizeof text))
        strncat(copy, text, 20);
}

int main(int count, char **words) {
    int rounds = count > 1 ? atoi(words[1]) : 1;
    for (int k = 0; k < rounds; k++) {
        integers();
        reals();
        strings();
        int32_t *heap = malloc(sizeof whole);
        if (heap) {
            memcpy(heap, whole, sizeof whole);
            qsort(heap, N, sizeof *heap, compare);
        }
        free(heap);
    }
    return text[0] == 0;
}
