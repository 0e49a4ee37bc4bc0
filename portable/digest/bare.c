/* The digest with no C library at all: read, write and exit are Linux's system calls, so that an emulator of programs runs it. It
   also prints how many products and quotients each question called for and, compiled with MEASURE_STACK, how much stack it took. */
#include "digest.h"
#include "routines.h"

static uint8_t corpus[24 << 20];

#if defined __riscv
static long call(long number, long a, long b, long c) {
    register long a0 __asm__("a0") = a, a1 __asm__("a1") = b, a2 __asm__("a2") = c, a7 __asm__("a7") = number;
    __asm__ volatile("ecall" : "+r"(a0) : "r"(a1), "r"(a2), "r"(a7) : "memory");
    return a0;
}
enum { READ = 63, WRITE = 64, EXIT = 93 };
__asm__(".globl _start\n_start:\n .option push\n .option norelax\n la gp, __global_pointer$\n .option pop\n"
        " andi sp, sp, -16\n call bare_main\n");
#elif defined __arm__
static long call(long number, long a, long b, long c) {
    register long r0 __asm__("r0") = a, r1 __asm__("r1") = b, r2 __asm__("r2") = c;
    /* r7 is the frame pointer of Thumb code */
    __asm__ volatile("push {r7}\n mov r7, %3\n svc #0\n pop {r7}" : "+r"(r0) : "r"(r1), "r"(r2), "r"(number) : "memory");
    return r0;
}
enum { READ = 3, WRITE = 4, EXIT = 1 };
__asm__(".syntax unified\n.thumb\n.globl _start\n.thumb_func\n_start:\n bl bare_main\n");
#endif

#ifdef MEASURE_STACK
/* The stack below is painted before each question. What is not so painted afterwards was used. */
enum { PAINTED = 384 << 10, PAINT = 0x0DECADE5, MARGIN = 256 };
static uint32_t deepest[QUESTIONS];
static uintptr_t low, clean;
__attribute__((noinline)) void before(void) {
    uintptr_t here = (uintptr_t)__builtin_frame_address(0) & ~(uintptr_t)7;
    if (low == 0) low = clean = here - PAINTED;
    for (uintptr_t p = clean; p < here - MARGIN; p += 4) *(volatile uint32_t *)p = PAINT;
    clean = here;
}
__attribute__((noinline)) void after(int question) {
    uintptr_t here = (uintptr_t)__builtin_frame_address(0), p = low;
    while (p < here - MARGIN && *(volatile uint32_t *)p == PAINT) p += 4;
    clean = p;
    if (here - p > deepest[question]) deepest[question] = (uint32_t)(here - p);
}
#endif

static void say(const char *text) {
    size_t n = 0;
    while (text[n]) n++;
    call(WRITE, 1, (long)text, (long)n);
}
static void say_number(uint32_t x) {
    char text[12];
    int at = 11;
    text[at] = 0;
    do {
        uint64_t rest;
        x = (uint32_t)quotient(x, 10, &rest);
        text[--at] = (char)('0' + rest);
    } while (x);
    say(text + at);
}
static void say_hex(uint32_t x) {
    char text[9];
    for (int i = 0; i < 8; i++) text[i] = "0123456789abcdef"[x >> (28 - 4 * i) & 15];
    text[8] = 0;
    say(text);
}

void bare_main(void) {
    static const char *const names[] = QUESTION_NAMES;
    size_t length = 0;
    long got;
    uint32_t told[4], calls = 0;
    while ((got = call(READ, 0, (long)(corpus + length), (long)(sizeof corpus - length))) > 0) length += (size_t)got;
    uint32_t streams = digest(corpus, length, told);
    for (int i = 0; i < QUESTIONS; i++) calls += asked[i];
    say_number(streams); say(" streams, "); say_number(calls); say(" questions, digest ");
    for (int i = 0; i < 4; i++) say_hex(told[i]);
    say("\n");
    for (int i = 0; i < QUESTIONS; i++) {
        say(names[i]); say(": products by call "); say_number(multiplied[i]);
        say(", quotients by call "); say_number(divided[i]);
#ifdef MEASURE_STACK
        say(", stack "); say_number(deepest[i]);
#endif
        say("\n");
    }
    call(EXIT, 0, 0, 0);
    for (;;) { }
}
