// One of each odd instruction, for `machhurel record check`: its addresses are 32 bits wide (-no-pie).
#include <stdint.h>
#include <string.h>

#define NOINLINE __attribute__((noinline, noclone, used))
char scratch[4096] __attribute__((aligned(64), used));
int64_t cell[64] __attribute__((aligned(64), used));
__thread volatile int64_t tls_ticks;
__thread volatile int32_t tls_axis;
#include "zoo.h"

int main(void) {
    tls_ticks = tls_axis = 1;
    zoo();
    return 0;
}
