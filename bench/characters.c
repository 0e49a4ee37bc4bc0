/* odif_utf8 beside glibc's iconv, in processor time: for each text both are measured in turn, and the best of ROUNDS counts.
   usage: characters ROUNDS */
#define _POSIX_C_SOURCE 199309L
#include "odif.h"
#include <iconv.h>
#include <stdio.h>
#include <stdlib.h>
#include <string.h>
#include <time.h>

enum { SIZE = 1 << 20 };
static uint8_t octets[SIZE], ours[ODIF_UTF8_MOST * SIZE], theirs[ODIF_UTF8_MOST * SIZE];

static double clock_now(void) {
    struct timespec now;
    clock_gettime(CLOCK_PROCESS_CPUTIME_ID, &now);
    return now.tv_sec * 1e3 + now.tv_nsec / 1e6;
}

/* The text again and again; its last octet is a letter, so that no accent is left without one. */
static void fill(const char *text, size_t length) {
    for (size_t i = 0; i < SIZE; i++) octets[i] = (uint8_t)text[i % length];
    octets[SIZE - 2] = octets[SIZE - 1] = 'a';
}

static size_t turned(const char *set) {
    iconv_t from = iconv_open("UTF-8", set);
    char *in = (char *)octets, *out = (char *)theirs;
    size_t left = SIZE, room = sizeof theirs;
    if (from == (iconv_t)-1) exit(2);
    iconv(from, &in, &left, &out, &room);
    iconv_close(from);
    return left ? 0 : sizeof theirs - room;
}

static void measure(const char *what, uint32_t number, const char *set, int rounds) {
    double best = 1e9, other = 1e9;
    odif_shown shown = {0, 0, 0, 0};
    size_t length = 0;
    for (int i = 0; i < rounds; i++) {
        double begun = clock_now();
        shown = odif_utf8(number, octets, SIZE, ours, sizeof ours);
        double between = clock_now();
        length = turned(set);
        double ended = clock_now();
        if (between - begun < best) best = between - begun;
        if (ended - between < other) other = ended - between;
    }
    int same = length == shown.length && memcmp(ours, theirs, length) == 0;
    printf("%-22s %6.2f ms, iconv %6.2f ms, %s\n", what, best, other, same ? "the same text" : "another text");
}

int main(int count, char **words) {
    static const char ascii[] = "Dear Sir, with reference to your letter of the third of this month we have the honour\n";
    static const char german[] = "Sehr geehrte Frau M\xC8uller, vielen Dank f\xC8ur Ihr Schreiben. Die Gr\xC8o\xFB" "e der B\xC8ucher\n"
        "und den gew\xC8unschten Preis k\xC8onnen wir Ihnen erst n\xC8" "achste Woche best\xC8" "atigen.\n";
    static const char latin[] = "Sehr geehrte Frau M\xFCller, vielen Dank f\xFCr Ihr Schreiben. Die Gr\xF6\xDF" "e der B\xFC" "cher\n"
        "und den gew\xFCnschten Preis k\xF6nnen wir Ihnen erst n\xE4" "chste Woche best\xE4tigen.\n";
    int rounds = count > 1 ? atoi(words[1]) : 31;
    fill(ascii, sizeof ascii - 1);
    measure("ASCII, ISO 6937", ODIF_ISO6937, "ISO_6937", rounds);
    measure("ASCII, T.61", ODIF_T61, "T.61-8BIT", rounds);
    measure("ASCII, ISO 8859-1", ODIF_LATIN1, "ISO-8859-1", rounds);
    fill(german, sizeof german - 1);
    measure("German, ISO 6937", ODIF_ISO6937, "ISO_6937", rounds);
    measure("German, T.61", ODIF_T61, "T.61-8BIT", rounds);
    fill(latin, sizeof latin - 1);
    measure("German, ISO 8859-1", ODIF_LATIN1, "ISO-8859-1", rounds);
    memset(octets, 1, SIZE);
    measure("controls, ISO 8859-1", ODIF_LATIN1, "ISO-8859-1", rounds);
    return 0;
}
