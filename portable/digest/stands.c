/* Ends the program where a copy stands otherwise than a strict machine is told (retarget.py). */
#include <stdint.h>

void stands(const void *at, uint64_t multiple);
void stands(const void *at, uint64_t multiple) {
    if (((uintptr_t)at & (multiple - 1)) != 0) __builtin_trap();
}
