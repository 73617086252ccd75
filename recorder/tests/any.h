// Random numbers for the tests, the same from the same state.
#ifndef ANY_H
#define ANY_H
#include <stdint.h>

static uint64_t state;

static uint64_t any(void) {
    state ^= state << 13;
    state ^= state >> 7;
    state ^= state << 17;
    return state;
}

#endif
