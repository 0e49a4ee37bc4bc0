/* What a compiler calls on a box with no multiplier and no divider (memory.c has the copies). Each product and each quotient is counted for
   the question that is being asked: a box without a multiplier has these in a library too. */
#include "digest.h"
#include "routines.h"

uint32_t multiplied[QUESTIONS + 1], divided[QUESTIONS + 1];

static int now(void) { return asking < 0 ? QUESTIONS : asking; }

static uint64_t product(uint64_t a, uint64_t b) {
    uint64_t p = 0;
    multiplied[now()]++;
    for (; b; b >>= 1, a <<= 1) if (b & 1) p += a;
    return p;
}
uint64_t quotient(uint64_t a, uint64_t b, uint64_t *rest) {
    uint64_t q = 0, r = 0;
    divided[now()]++;
    for (int i = 63; i >= 0; i--) {
        r = r << 1 | (a >> i & 1);
        if (r >= b) r -= b, q |= (uint64_t)1 << i;
    }
    *rest = r;
    return q;
}
uint64_t __muldi3(uint64_t a, uint64_t b) { return product(a, b); }
uint32_t __mulsi3(uint32_t a, uint32_t b) { return (uint32_t)product(a, b); }
uint64_t __udivdi3(uint64_t a, uint64_t b) { uint64_t r; return quotient(a, b, &r); }
uint64_t __umoddi3(uint64_t a, uint64_t b) { uint64_t r; return quotient(a, b, &r), r; }
uint32_t __udivsi3(uint32_t a, uint32_t b) { uint64_t r; return (uint32_t)quotient(a, b, &r); }
uint32_t __umodsi3(uint32_t a, uint32_t b) { uint64_t r; return quotient(a, b, &r), (uint32_t)r; }

/* A number of 64 bits, shifted on a machine of 32. */
static uint64_t right(uint64_t x, int n) {
    uint32_t low = (uint32_t)x, high = (uint32_t)(x >> 32);
    if (n == 0) return x;
    if (n < 32) { low = low >> n | high << (32 - n); high >>= n; } else { low = high >> (n - 32); high = 0; }
    return (uint64_t)high << 32 | low;
}
static uint64_t left(uint64_t x, int n) {
    uint32_t low = (uint32_t)x, high = (uint32_t)(x >> 32);
    if (n == 0) return x;
    if (n < 32) { high = high << n | low >> (32 - n); low <<= n; } else { high = low << (n - 32); low = 0; }
    return (uint64_t)high << 32 | low;
}
uint64_t __lshrdi3(uint64_t x, int n) { return right(x, n); }
uint64_t __ashldi3(uint64_t x, int n) { return left(x, n); }

#if defined __arm__ /* the names of Arm's own interface */
uint32_t __aeabi_uidiv(uint32_t a, uint32_t b) { return __udivsi3(a, b); }
__asm__(".syntax unified\n.thumb\n.globl __aeabi_uldivmod\n.thumb_func\n__aeabi_uldivmod:\n push {r4, lr}\n sub sp, #16\n"
        " add r4, sp, #8\n str r4, [sp]\n bl quotient\n ldr r2, [sp, #8]\n ldr r3, [sp, #12]\n add sp, #16\n pop {r4, pc}\n");
uint64_t __aeabi_lmul(uint64_t a, uint64_t b) { return product(a, b); }
uint64_t __aeabi_llsr(uint64_t x, int n) { return right(x, n); }
uint64_t __aeabi_llsl(uint64_t x, int n) { return left(x, n); }
#endif
