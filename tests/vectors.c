/* Puts the streams of files of vectors/ to the library, each file after a word, and holds each answer to the one that stands after the stream in its line:
     plain      number, place and headers of the check; the normal form, or -; the number and the joined content of the element after the profile, or -
     profiles   the check of the stream alone; the check of it in a definite profile; the normal form of it in an indefinite one, or -
     editions   the check by 1988; by 1993; by 1993 the kind, the object type and the content's bounds of the element after the profile, or -; its number
                and its joined content, or -
   Prints what is not as it should be, and as its last line 'N passed, M failed'. */
#include "odif.h"

#include <stdarg.h>
#include <stdio.h>
#include <string.h>

enum { ROOM = 4096, NUMBERS = 10 * ODIF_ROW_WIDTH };

typedef struct {
    char text[ROOM];
    size_t length;
} answer;

typedef void (*asked)(answer *, const uint8_t *, size_t);

static int passed, failed;

static void say(answer *a, const char *form, ...)
{
    va_list words;

    va_start(words, form);
    a->length += (size_t)vsnprintf(a->text + a->length, ROOM - a->length, form, words);
    va_end(words);
}

static void say_octets(answer *a, const uint8_t *s, size_t n)
{
    size_t i;

    for (i = 0; i < n; i++)
        say(a, "%02X", s[i]);
}

static void say_check(answer *a, odif_checked c)
{
    say(a, "%u %u %u", c.number, c.place, c.headers);
}

static void say_normal(answer *a, const uint8_t *s, size_t n)
{
    uint8_t form[ROOM];
    odif_written w = odif_normal(s, n, form, sizeof form);

    if (w.number == 0)
        say_octets(a, form, w.length);
    else
        say(a, "-");
}

static void say_joined(answer *a, odif_copied c, const uint8_t *content)
{
    if (c.number != 0) {
        say(a, "-");
        return;
    }
    say(a, c.length == 0 ? "1" : "1 ");
    say_octets(a, content, c.length);
}

static void plain(answer *a, const uint8_t *s, size_t n)
{
    uint32_t table[NUMBERS];
    uint8_t content[ROOM];

    say_check(a, odif_check(s, n, table, NUMBERS));
    say(a, " ; ");
    say_normal(a, s, n);
    say(a, " ; ");
    say_joined(a, odif_joined(s, n, 1, content, sizeof content), content);
}

/* The profile's header, in as few octets as its length lets. */
static size_t profile_of(uint8_t *out, size_t n)
{
    out[0] = 0xA0;
    if (n < 128) {
        out[1] = (uint8_t)n;
        return 2;
    }
    out[1] = 0x81;
    out[2] = (uint8_t)n;
    return 3;
}

static void profiles(answer *a, const uint8_t *s, size_t n)
{
    uint32_t table[NUMBERS];
    uint8_t profile[ROOM] = {0};
    size_t head = profile_of(profile, n);

    say_check(a, odif_check(s, n, table, NUMBERS));
    memcpy(profile + head, s, n);
    say(a, " ; ");
    say_check(a, odif_check(profile, head + n, table, NUMBERS));
    memset(profile, 0, sizeof profile); /* the two octets after the item close it */
    memcpy(profile, "\xA0\x80", 2);
    memcpy(profile + 2, s, n);
    say(a, " ; ");
    say_normal(a, profile, n + 4);
}

static void editions(answer *a, const uint8_t *s, size_t n)
{
    uint32_t table[NUMBERS] = {0};
    const uint32_t *row = table + ODIF_ROW_WIDTH;
    uint8_t content[ROOM];
    odif_checked c;

    say_check(a, odif_check(s, n, table, NUMBERS));
    say(a, " ; ");
    c = odif_check_1993(s, n, table, NUMBERS);
    say_check(a, c);
    if (c.number == 0)
        say(a, " ; %u %u %u %u ; ", row[ODIF_KIND], row[ODIF_OBJECT_TYPE], row[ODIF_CONTENT_FIRST], row[ODIF_CONTENT_PAST]);
    else
        say(a, " ; - ; ");
    say_joined(a, odif_joined_1993(s, n, 1, content, sizeof content), content);
}

/* The octets of hexadecimal pairs, up to the end of their field; spaces are left out. */
static size_t octets(const char *hex, uint8_t *out)
{
    size_t n = 0;
    unsigned octet;

    while (n < ROOM / 4 && sscanf(hex += strspn(hex, " "), "%2x", &octet) == 1) {
        out[n++] = (uint8_t)octet;
        hex += 2;
    }
    return n;
}

/* One line: its name, its stream, and what is answered of it. */
static void try_line(char *line, asked ask)
{
    static answer got;
    uint8_t s[ROOM / 4];
    char *stream = strchr(line, ';'), *wanted = stream == NULL ? NULL : strchr(stream + 1, ';');

    line[strcspn(line, "\n")] = '\0';
    got.length = 0;
    say(&got, "");
    if (wanted != NULL)
        ask(&got, s, octets(stream + 1, s));
    if (wanted != NULL && strcmp(wanted + 1 + strspn(wanted + 1, " "), got.text) == 0) {
        passed++;
        return;
    }
    failed++;
    printf("%s\n  is answered: %s\n", line, got.text);
}

static void try_file(asked ask, const char *name)
{
    char line[ROOM];
    int tried = 0;
    FILE *f = fopen(name, "r");

    while (f != NULL && fgets(line, sizeof line, f) != NULL)
        if (line[0] != '#') {
            try_line(line, ask);
            tried++;
        }
    if (f != NULL)
        fclose(f);
    if (tried == 0) {
        failed++;
        printf("%s: no vector\n", name);
    }
}

int main(int argc, char **argv)
{
    static const struct {
        const char *word;
        asked ask;
    } ways[] = {{"plain", plain}, {"profiles", profiles}, {"editions", editions}};
    int i;
    size_t way;

    for (i = 1; i + 1 < argc; i += 2)
        for (way = 0; way < sizeof ways / sizeof *ways; way++)
            if (strcmp(argv[i], ways[way].word) == 0)
                try_file(ways[way].ask, argv[i + 1]);
    printf("%d passed, %d failed\n", passed, failed);
    return passed == 0 || failed != 0;
}
