/* Puts the letters of vectors/pm1.txt to pm1_pages and its twin, beside odif_check: what is answered, what is written to a list that is long enough, just
   long enough or one record too short, and the table. Then the stack that the question takes of small letters and of large ones. Prints what is not as it
   should be, and as its last line 'N passed, M failed'. */
#define _XOPEN_SOURCE 700
#include "pm1.h"

#include <stdio.h>
#include <stdlib.h>
#include <string.h>
#include <ucontext.h>

enum { ROOM = 16, NUMBERS = ROOM * ODIF_ROW_WIDTH };

static int passed, failed;

static void expect(int good, const char *what, const char *letter)
{
    if (good) {
        passed++;
        return;
    }
    failed++;
    printf("%s: %s\n", letter, what);
}

static size_t octets(const char *hex, uint8_t *out)
{
    size_t n = 0;
    unsigned octet;

    while (sscanf(hex, "%2x", &octet) == 1 && hex[0] != ' ') {
        out[n++] = (uint8_t)octet;
        hex += 2;
    }
    return n;
}

static void clear(uint32_t *table, pm1_page *list)
{
    memset(table, 0x5A, NUMBERS * sizeof *table);
    memset(list, 0x5A, ROOM * sizeof *list);
}

static pm1_listed ask(int edition, const uint8_t *s, size_t n, uint32_t *table, size_t numbers, pm1_page *list, size_t room)
{
    return edition == 1993 ? pm1_pages_1993(s, n, table, numbers, list, room) : pm1_pages(s, n, table, numbers, list, room);
}

/* list_len counts numbers, two a record */
static pm1_listed ask_numbers(int edition, const uint8_t *s, size_t n, uint32_t *table, pm1_page *list, size_t list_len)
{
    uint32_t *numbers = (uint32_t *)list;

    return edition == 1993 ? pm1_pages_numbers_1993(s, n, table, NUMBERS, numbers, list_len)
                           : pm1_pages_numbers(s, n, table, NUMBERS, numbers, list_len);
}

/* wanted: the pages that the letter should have */
static void try_letter(const char *name, int edition, const uint8_t *s, size_t n, pm1_listed told, const pm1_page *wanted)
{
    uint32_t checked[NUMBERS], table[NUMBERS], blank[NUMBERS];
    pm1_page list[ROOM], blank_list[ROOM], none[ROOM];
    odif_checked c;
    pm1_listed r;

    clear(blank, blank_list);
    clear(checked, none);
    c = edition == 1993 ? odif_check_1993(s, n, checked, NUMBERS) : odif_check(s, n, checked, NUMBERS);
    clear(table, list);
    r = ask(edition, s, n, table, NUMBERS, list, told.pages);
    expect(memcmp(&r, &told, sizeof r) == 0 && r.elements == c.elements, "the answer", name);
    expect(memcmp(list, wanted, told.pages * sizeof *list) == 0, "the pages", name);
    expect(memcmp(list + told.pages, blank_list + told.pages, (ROOM - told.pages) * sizeof *list) == 0, "what is past them", name);
    expect(memcmp(table, checked, sizeof table) == 0, "the table", name);
    if (told.pages != 0) {
        clear(table, list);
        r = ask_numbers(edition, s, n, table, list, 2 * told.pages - 1);
        expect(r.number == PM1_LIST_TOO_SHORT && memcmp(list, blank_list, sizeof list) == 0, "an incomplete last record", name);
        clear(table, list);
        r = ask(edition, s, n, table, NUMBERS, list, told.pages - 1);
        expect(r.number == PM1_LIST_TOO_SHORT && r.place == 0 && r.elements == c.elements && r.pages == 0, "30", name);
        expect(memcmp(list, blank_list, sizeof list) == 0 && memcmp(table, checked, sizeof table) == 0, "30: list untouched, table finished", name);
    }
    clear(table, list);
    r = ask(edition, s, n, table, c.elements * ODIF_ROW_WIDTH - 1, list, ROOM);
    expect(r.number == 16 && r.place == 0 && r.elements == 0 && r.pages == 0, "16", name);
    expect(memcmp(list, blank_list, sizeof list) == 0 && memcmp(table, blank, sizeof table) == 0, "16: nothing touched", name);
    clear(table, list);
    r = ask(edition, s, n - 1, table, NUMBERS, list, ROOM);
    c = edition == 1993 ? odif_check_1993(s, n - 1, NULL, 0) : odif_check(s, n - 1, NULL, 0);
    expect(r.number == c.number && r.place == c.place && r.elements == 0 && r.pages == 0, "cut short", name);
    expect(memcmp(list, blank_list, sizeof list) == 0 && memcmp(table, blank, sizeof table) == 0, "cut short: nothing touched", name);
}

/* The question on a stack of its own, filled with a pattern: what is not the pattern afterwards was used. */
enum { PATTERN = 0xA5 };
static uint8_t letter[16 * ODIF_MOST_ELEMENTS], stack[1 << 20];
static uint32_t rows[ODIF_ROW_WIDTH * ODIF_MOST_ELEMENTS];
static pm1_page found[ODIF_MOST_ELEMENTS];
static size_t length;
static pm1_listed listed;
static ucontext_t here, there;

static void ask_1988(void) { listed = pm1_pages(letter, length, rows, sizeof rows / sizeof *rows, found, ODIF_MOST_ELEMENTS); }
static void ask_1993(void) { listed = pm1_pages_1993(letter, length, rows, sizeof rows / sizeof *rows, found, ODIF_MOST_ELEMENTS); }

/* A profile and so many pages, each with two dimensions of one octet. */
static void make_pages(uint32_t count)
{
    static const char page[] = "\xA2\x0D\x02\x01\x02\x31\x08\xA4\x06\x80\x01\x01\x80\x01\x01";

    memcpy(letter, "\xA0\x00", 2);
    for (length = 2; count != 0; count--, length += sizeof page - 1)
        memcpy(letter + length, page, sizeof page - 1);
}

static size_t used(void)
{
    size_t unused = 0;

    while (unused < sizeof stack && stack[unused] == PATTERN)
        unused++;
    return sizeof stack - unused;
}

static void try_stack(void (*ask)(void), uint32_t pages, size_t most, const char *name)
{
    make_pages(pages);
    memset(stack, PATTERN, sizeof stack);
    getcontext(&there);
    there.uc_stack.ss_sp = stack;
    there.uc_stack.ss_size = sizeof stack;
    there.uc_link = &here;
    makecontext(&there, ask, 0);
    swapcontext(&here, &there);
    expect(listed.number == 0 && listed.pages == pages && found[0].verdict == PM1_ESSENTIAL, "pages of one unit", name);
    expect(used() <= most, "more stack than the header says", name);
}

int main(int argc, char **argv)
{
    char line[1024];
    FILE *f = argc == 2 ? fopen(argv[1], "r") : NULL;

    if (f == NULL)
        return 2;
    while (fgets(line, sizeof line, f) != NULL) {
        uint8_t s[512];
        pm1_page wanted[ROOM];
        pm1_listed told;
        char *hex, *answer, *pages;
        size_t n, k = 0;

        if (line[0] == '#')
            continue;
        hex = strstr(line, " ; ");
        answer = strstr(hex + 3, " ; ");
        pages = strstr(answer + 3, " ; ");
        *hex = '\0';
        n = octets(hex + 3, s);
        sscanf(answer + 3, "%u %u %u %u", &told.number, &told.place, &told.elements, &told.pages);
        for (pages = strtok(pages + 3, " \n"); pages != NULL; pages = strtok(NULL, " \n"))
            if (sscanf(pages, "%u:%u", &wanted[k].element, &wanted[k].verdict) == 2)
                k++;
        expect(k == told.pages, "the vector itself", line);
        try_letter(line, 1988, s, n, told, wanted);
        try_letter(line, 1993, s, n, told, wanted);
    }
    fclose(f);
    try_stack(ask_1988, ODIF_SMALL_ELEMENTS - 1, ODIF_STACK, "a small letter");
    try_stack(ask_1993, ODIF_SMALL_ELEMENTS - 1, ODIF_STACK, "a small letter, 1993");
    try_stack(ask_1988, ODIF_MOST_ELEMENTS - 1, ODIF_STACK, "a large letter");
    try_stack(ask_1993, ODIF_MOST_ELEMENTS - 1, ODIF_STACK, "a large letter, 1993");
    printf("%d passed, %d failed\n", passed, failed);
    return failed != 0;
}
