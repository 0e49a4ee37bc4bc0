/* Counts the comparisons of the library whose change the corpus could show: portable/changes has each call this, with 1 where the changed one would come out
   otherwise. At the end the numbers of those stand on standard error. */
#include <stdint.h>
#include <stdio.h>

enum { MOST = 4096 };
static unsigned char shown[MOST];

void compared(uint32_t number, uint32_t differs);
void compared(uint32_t number, uint32_t differs) {
    if (number < MOST && differs) shown[number] = 1;
}

__attribute__((destructor)) static void tell(void) {
    for (int number = 0; number < MOST; number++)
        if (shown[number]) fprintf(stderr, "%d\n", number);
}
