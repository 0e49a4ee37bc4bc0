/* What a compiler calls for copies and clearing, for a library that is linked with no C library. */
#include <stddef.h>
#include <stdint.h>

void *memcpy(void *to, const void *from, size_t n);
void *memmove(void *to, const void *from, size_t n);
void *memset(void *to, int octet, size_t n);
int memcmp(const void *a, const void *b, size_t n);
int bcmp(const void *a, const void *b, size_t n);

/* The machine's own numbers, so many octets at a step. */
typedef uintptr_t __attribute__((may_alias)) Word;
enum { WORD = sizeof(Word) };
static int between_words(const void *at) { return ((uintptr_t)at & (WORD - 1)) != 0; }

void *memcpy(void *to, const void *from, size_t n) {
    unsigned char *t = to;
    const unsigned char *f = from;
    if ((((uintptr_t)t ^ (uintptr_t)f) & (WORD - 1)) == 0) {
        for (; n > 0 && between_words(t); n--) *t++ = *f++;
        for (; n >= WORD; n -= WORD, t += WORD, f += WORD) *(Word *)(void *)t = *(const Word *)(const void *)f;
    }
    while (n--) *t++ = *f++;
    return to;
}
void *memmove(void *to, const void *from, size_t n) {
    unsigned char *t = to;
    const unsigned char *f = from;
    if ((uintptr_t)t <= (uintptr_t)f) return memcpy(to, from, n);
    while (n--) t[n] = f[n];
    return to;
}
void *memset(void *to, int octet, size_t n) {
    unsigned char *t = to;
    Word word = (unsigned char)octet;
    for (unsigned bits = 8; bits < 8 * WORD; bits <<= 1) word |= word << bits;
    for (; n > 0 && between_words(t); n--) *t++ = (unsigned char)octet;
    for (; n >= WORD; n -= WORD, t += WORD) *(Word *)(void *)t = word;
    while (n--) *t++ = (unsigned char)octet;
    return to;
}
int memcmp(const void *a, const void *b, size_t n) {
    const unsigned char *x = a, *y = b;
    for (; n--; x++, y++) if (*x != *y) return *x < *y ? -1 : 1;
    return 0;
}
int bcmp(const void *a, const void *b, size_t n) { return memcmp(a, b, n); }

#if defined _WIN64 && defined __x86_64__
/* Windows gives a thread its stack page by page, and each page only when it is touched in order: what a function asks for is touched before it is used.
   The size comes in rax, and every register stays. */
__asm__(".globl ___chkstk_ms\n___chkstk_ms:\n push %rcx\n push %rax\n cmp $0x1000, %rax\n lea 24(%rsp), %rcx\n jb 1f\n"
        "0: sub $0x1000, %rcx\n orq $0, (%rcx)\n sub $0x1000, %rax\n cmp $0x1000, %rax\n ja 0b\n"
        "1: sub %rax, %rcx\n orq $0, (%rcx)\n pop %rax\n pop %rcx\n ret\n");
#endif

#if defined __arm__ /* the names of Arm's own interface */
#define COPIES(bits) \
    void __aeabi_memcpy##bits(void *t, const void *f, size_t n) { memcpy(t, f, n); } \
    void __aeabi_memmove##bits(void *t, const void *f, size_t n) { memmove(t, f, n); } \
    void __aeabi_memset##bits(void *t, size_t n, int c) { memset(t, c, n); } \
    void __aeabi_memclr##bits(void *t, size_t n) { memset(t, 0, n); }
COPIES()
COPIES(4)
COPIES(8)
#endif
