/* The digest with a C library: digest < CORPUS. With any word it also prints how often each question gave each number. */
#include <stdio.h>
#ifdef _WIN32
#include <fcntl.h>
#include <io.h>
#endif
#include "digest.h"

static uint8_t corpus[24 << 20];

int main(int count, char **words) {
    const char *const names[] = QUESTION_NAMES;
    uint32_t told[4], calls = 0;
    (void)words;
#ifdef _WIN32 /* octets, and not lines */
    _setmode(_fileno(stdin), _O_BINARY);
#endif
    uint32_t streams = digest(corpus, fread(corpus, 1, sizeof corpus, stdin), told);
    for (int i = 0; i < QUESTIONS; i++) calls += asked[i];
    printf("%u streams, %u questions, digest %08x%08x%08x%08x\n", (unsigned)streams, (unsigned)calls, (unsigned)told[0],
        (unsigned)told[1], (unsigned)told[2], (unsigned)told[3]);
    for (int i = 0; i < QUESTIONS && count > 1; i++) {
        printf("%s:", names[i]);
        for (int number = 0; number < NUMBERS; number++)
            if (met[i][number]) printf(" %d", number);
        printf("\n");
    }
    return 0;
}
