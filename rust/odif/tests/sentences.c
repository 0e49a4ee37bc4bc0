/* Prints the header's version and the library's, and the sentence of each number that it is given as a word. */
#include <stdio.h>
#include <stdlib.h>
#include "odif.h"

int main(int count, char **words) {
    printf("%s %d %s\n", ODIF_VERSION, ODIF_VERSION_NUMBER, odif_version());
    for (int i = 1; i < count; i++) puts(odif_sentence((uint32_t)strtoul(words[i], NULL, 10)));
    return 0;
}
