/* Lists the pages of a letter with what the PM1 desk says of each: pages < FILE. It ends with status 1 if the letter is
   refused or a page is not within PM1, and with 2 if it cannot be read. */
#include <stdio.h>
#ifdef _WIN32
#include <fcntl.h>
#include <io.h>
#endif
#include "pm1.h"

static const char *const verdicts[] = {"none", "essential", "non-essential", "outside", "not fixed"};
static uint8_t stream[ODIF_STREAM_LIMIT + 1];
static uint32_t table[ODIF_ROW_WIDTH * ODIF_MOST_ELEMENTS];
static pm1_page list[ODIF_MOST_ELEMENTS];

int main(void) {
    int outside = 0;
#ifdef _WIN32 /* octets, and not lines */
    _setmode(_fileno(stdin), _O_BINARY);
#endif
    size_t numbers = sizeof table / sizeof *table, length = fread(stream, 1, sizeof stream, stdin);
    if (ferror(stdin)) return perror("pages"), 2;
    pm1_listed found = pm1_pages(stream, length, table, numbers, list, ODIF_MOST_ELEMENTS);
    if (found.number != 0) {
        fprintf(stderr, "refused, number %u at octet %u: %s\n", found.number, found.place, odif_sentence(found.number));
        return 1;
    }
    for (uint32_t i = 0; i < found.pages; i++) {
        const uint32_t *row = table + ODIF_ROW_WIDTH * list[i].element;
        int size = (int)(row[ODIF_IDENTIFIER_PAST] - row[ODIF_IDENTIFIER_FIRST]);
        printf("%.*s: %s\n", size, (const char *)stream + row[ODIF_IDENTIFIER_FIRST], verdicts[list[i].verdict]);
        if (list[i].verdict == PM1_OUTSIDE || list[i].verdict == PM1_NOT_FIXED) outside = 1;
    }
    return fflush(stdout) != 0 || ferror(stdout) ? 2 : outside;
}
