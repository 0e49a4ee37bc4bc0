/* The proved library beside the plain C reader and beside OpenSSL's bare walk, on the same files:

     bench columns                 what is compared, a line each
     bench time ROUNDS FILE..      processor time: the two that are compared are asked in turn, ROUNDS times each or for a
                                   second, and the best of each counts
     bench check ROUNDS FILE..     the same of the check alone
     bench count FILE..            under callgrind: a dump for each side of each comparison, with its name
     bench answers DAMAGED FILE..  only whether they answer alike, of each file and of so many damaged copies of it

   A file whose name ends in .1993 is read by that edition, any other by that of 1988. `time` prints a line for each file: its
   octets, the time of the library's check in microseconds, then ratios, the library's time over the other's, or - where the
   question has nothing to do in that letter. Before it measures, it holds the answers of both to each other; where they differ
   it ends with 1. A question more gets its two functions, a row of `pairs` and a line of `difference`. */
#define _POSIX_C_SOURCE 199309L
#include <stdio.h>
#include <stdlib.h>
#include <string.h>
#include <time.h>
#include "odif.h"
#include "plain.h"
#include "pm1.h"
#ifdef WITH_OPENSSL
#include <openssl/asn1.h>
#endif
#ifdef WITH_CALLGRIND
#include <valgrind/callgrind.h>
#else
#define CALLGRIND_ZERO_STATS
#define CALLGRIND_DUMP_STATS_AT(name)
#endif

enum { MOST = ODIF_MOST_ELEMENTS, NUMBERS = ODIF_ROW_WIDTH * MOST, NO_LIMIT = 1 << 30 };

/* What is asked: the stream, the edition, a text unit, a side, and entries made of the stream's layout list. */
static uint8_t stream[ODIF_STREAM_LIMIT + 1];
static size_t length;
static int edition, side;
static uint32_t asked, entries[6 * MOST];
static size_t entry_count;
static size_t most = NO_LIMIT; /* how much is lent at most: of rows, records and octets */

/* What is lent, to the library and to the other. */
static uint8_t out[ODIF_STREAM_LIMIT], their_out[ODIF_STREAM_LIMIT];
static uint32_t table[NUMBERS], their_table[NUMBERS], their_list[5 * MOST];
static odif_match matches[MOST];
static odif_line lines[MOST];
static odif_source sources[ODIF_STREAM_LIMIT / 2];
static pm1_page pages[MOST];

static size_t lent(size_t all) { return most < all ? most : all; }

/* ---- OpenSSL's walk: every header by ASN1_get_object, and no rule judged. It gives how many there are. */

#ifdef WITH_OPENSSL
static uint32_t walk_run(const unsigned char **at, const unsigned char *limit, int marked) {
    uint32_t count = 0;
    while (*at < limit) {
        long inside;
        int tag, class, form = ASN1_get_object(at, &inside, &tag, &class, limit - *at);
        if (form & 0x80) return count;
        if (marked && tag == 0 && class == 0) return count;
        count++;
        if (form & 1) count += walk_run(at, limit, 1);
        else if (form & V_ASN1_CONSTRUCTED) count += walk_run(at, *at + inside, 0);
        else *at += inside;
    }
    return count;
}

static uint32_t openssl_walk(void) {
    const unsigned char *at = stream;
    return walk_run(&at, stream + length, 0);
}
#endif

/* ---- the questions: the whole answer, which is held to the other's */

#define OF(question) (edition == PLAIN_1993 ? question##_1993 : question)
#define STREAM stream, length
#define TABLE table, lent(MOST) * ODIF_ROW_WIDTH
#define THEIR_TABLE their_table, lent(MOST) * ODIF_ROW_WIDTH

static odif_checked checked(void) { return OF(odif_check)(STREAM, TABLE); }
static plain_checked their_checked(void) { return plain_check(edition, STREAM, THEIR_TABLE); }

static odif_listed listed(int asked_side) {
    if (asked_side == PLAIN_LAYOUT) return OF(odif_layout)(STREAM, TABLE, matches, lent(MOST));
    return OF(odif_logical)(STREAM, TABLE, matches, lent(MOST));
}
static plain_listed their_listed(int asked_side) {
    return plain_list(edition, STREAM, asked_side, THEIR_TABLE, their_list, 3 * lent(MOST));
}

static odif_written written(void) { return OF(odif_normal)(STREAM, out, lent(sizeof out)); }
static plain_written their_written(void) { return plain_normal(edition, STREAM, their_out, lent(sizeof their_out)); }

static odif_found found(void) { return OF(odif_content)(STREAM, asked); }
static plain_found their_found(void) { return plain_content(edition, STREAM, asked); }

static odif_text_read text_read(void) {
    if (side == PLAIN_LAYOUT) return OF(odif_layout_text)(STREAM, TABLE, lines, lent(MOST), out, lent(sizeof out));
    return OF(odif_logical_text)(STREAM, TABLE, lines, lent(MOST), out, lent(sizeof out));
}
static plain_text_read their_text_read(void) {
    return plain_text(edition, STREAM, side, THEIR_TABLE, their_list, 5 * lent(MOST), their_out, lent(sizeof their_out));
}

static odif_ordered ordered(int class) {
    return class == PLAIN_A ? OF(odif_order_a)(STREAM) : OF(odif_order_b)(STREAM);
}
static plain_ordered their_ordered(int class) { return plain_order(edition, STREAM, class); }

static pm1_listed paged(void) { return OF(pm1_pages)(STREAM, TABLE, pages, lent(MOST)); }
static plain_listed their_paged(void) { return plain_pages(edition, STREAM, THEIR_TABLE, their_list, 2 * lent(MOST)); }

static odif_written made(void) { return odif_make_numbers(STREAM, entries, 6 * entry_count, out, lent(sizeof out)); }
static plain_written their_made(void) { return plain_make(STREAM, entries, 6 * entry_count, their_out, lent(sizeof their_out)); }

/* ---- the same with a number of the answer, so that no call can be left out */

static uint32_t check(void) { return checked().elements; }
static uint32_t layout(void) { return listed(PLAIN_LAYOUT).matches; }
static uint32_t logical(void) { return listed(PLAIN_LOGICAL).matches; }
static uint32_t normal(void) { return written().length; }
static uint32_t content(void) { return found().past; }
static uint32_t text(void) { return text_read().lines; }
static uint32_t list_sources(void) {
    if (side == PLAIN_LAYOUT) return OF(odif_layout_sources)(STREAM, sources, lent(ODIF_STREAM_LIMIT / 2)).sources;
    return OF(odif_logical_sources)(STREAM, sources, lent(ODIF_STREAM_LIMIT / 2)).sources;
}
static uint32_t order_a(void) { return ordered(PLAIN_A).number; }
static uint32_t order_b(void) { return ordered(PLAIN_B).number; }
static uint32_t list_pages(void) { return paged().pages; }
static uint32_t make(void) { return made().length; }

static uint32_t their_check(void) { return their_checked().elements; }
static uint32_t their_layout(void) { return their_listed(PLAIN_LAYOUT).count; }
static uint32_t their_logical(void) { return their_listed(PLAIN_LOGICAL).count; }
static uint32_t their_normal(void) { return their_written().length; }
static uint32_t their_content(void) { return their_found().past; }
static uint32_t their_text(void) { return their_text_read().lines; }
static uint32_t their_order_a(void) { return their_ordered(PLAIN_A).number; }
static uint32_t their_order_b(void) { return their_ordered(PLAIN_B).number; }
static uint32_t their_pages(void) { return their_paged().count; }
static uint32_t their_make(void) { return their_made().length; }

static uint32_t always(void) { return 1; }

typedef uint32_t (*question)(void);
static const struct {
    const char *name;
    question ours, theirs, applies;
} pairs[] = {
    {"check", check, their_check, always},
    {"layout list", layout, their_layout, always},
    {"logical list", logical, their_logical, always},
    {"normal form", normal, their_normal, always},
    {"content", content, their_content, content},
    {"text", text, their_text, text},
    {"order A", order_a, their_order_a, always},
    {"order B", order_b, their_order_b, always},
    {"pages", list_pages, their_pages, list_pages},
    {"make", make, their_make, text},
    {"text over the check", text, check, text},
    {"sources over the text", list_sources, text, text},
#ifdef WITH_OPENSSL
    {"check over OpenSSL's walk", check, openssl_walk, always},
#endif
};
enum { PAIRS = sizeof pairs / sizeof *pairs };

/* ---- that they answer alike */

/* What is asked of a stream: its first text unit, the side that has matches, and an entry for each match of the layout list. */
static void choose(void) {
    uint32_t elements = check(), count = layout();
    side = count == 0 && logical() > 0 ? PLAIN_LOGICAL : PLAIN_LAYOUT;
    for (asked = 0; asked < elements && table[asked * ODIF_ROW_WIDTH + ODIF_KIND] != 3;) asked++;
    count = listed(side).matches;
    int name = side == PLAIN_LAYOUT ? ODIF_IDENTIFIER_FIRST : ODIF_LOGICAL_FIRST;
    for (entry_count = 0; entry_count < count && entry_count < ODIF_MOST_ENTRIES; entry_count++) {
        const uint32_t *row = table + matches[entry_count].element * ODIF_ROW_WIDTH;
        const uint32_t *unit = table + matches[entry_count].unit * ODIF_ROW_WIDTH;
        uint32_t *entry = entries + 6 * entry_count;
        entry[0] = row[ODIF_IDENTIFIER_FIRST];
        entry[1] = row[ODIF_IDENTIFIER_PAST];
        entry[2] = unit[name] + (entry[1] - entry[0]) + 1;
        entry[3] = unit[name + 1];
        entry[4] = unit[ODIF_CONTENT_FIRST];
        entry[5] = unit[ODIF_CONTENT_PAST];
    }
}

#define DIFFER(a, b) (sizeof(a) != sizeof(b) || memcmp(&(a), &(b), sizeof(a)))

static int tables_differ(uint32_t elements) { return memcmp(table, their_table, elements * ODIF_ROW_WIDTH * sizeof *table) != 0; }

static const char *list_difference(int asked_side) {
    odif_listed a = listed(asked_side);
    plain_listed b = their_listed(asked_side);
    if (DIFFER(a, b) || tables_differ(a.elements)) return asked_side ? "logical list" : "layout list";
    return memcmp(matches, their_list, a.matches * sizeof *matches) ? "a match" : NULL;
}

static const char *text_difference(void) {
    odif_text_read a = text_read();
    plain_text_read b = their_text_read();
    if (DIFFER(a, b) || tables_differ(a.elements)) return "text";
    return memcmp(lines, their_list, a.lines * sizeof *lines) || memcmp(out, their_out, a.length) ? "a line" : NULL;
}

static const char *page_difference(void) {
    pm1_listed a = paged();
    plain_listed b = their_paged();
    if (DIFFER(a, b) || tables_differ(a.elements)) return "pages";
    return memcmp(pages, their_list, a.pages * sizeof *pages) ? "a page" : NULL;
}

static const char *order_difference(void) {
    odif_ordered a = ordered(PLAIN_A), b = ordered(PLAIN_B);
    plain_ordered c = their_ordered(PLAIN_A), d = their_ordered(PLAIN_B);
    return DIFFER(a, c) ? "order A" : DIFFER(b, d) ? "order B" : NULL;
}

/* What differs, or null. */
static const char *difference(void) {
    odif_checked a = checked();
    plain_checked b = their_checked();
    if (DIFFER(a, b) || tables_differ(a.elements)) return "check";
    odif_written c = written();
    plain_written d = their_written();
    if (DIFFER(c, d) || memcmp(out, their_out, c.length)) return "normal form";
    odif_found e = found();
    plain_found f = their_found();
    if (DIFFER(e, f)) return "content";
    c = made();
    d = their_made();
    if (DIFFER(c, d) || memcmp(out, their_out, c.length)) return "make";
#ifdef WITH_OPENSSL
    if (a.number == 0 && openssl_walk() != a.headers) return "OpenSSL's walk";
#endif
    const char *differs = list_difference(PLAIN_LAYOUT);
    if (!differs) differs = list_difference(PLAIN_LOGICAL);
    if (!differs) differs = text_difference();
    if (!differs) differs = page_difference();
    return differs ? differs : order_difference();
}

/* ---- damaged copies */

static uint32_t drawn = 2463534242u;
static uint32_t draw(uint32_t below) {
    drawn ^= drawn << 13;
    drawn ^= drawn >> 17;
    drawn ^= drawn << 5;
    return drawn % below;
}

/* Octets of a letter, set to another of its own or to any; or its end cut; or what is lent. */
static void damage(void) {
    most = draw(4) ? NO_LIMIT : draw(60);
    edition = draw(2) ? PLAIN_1993 : PLAIN_1988;
    if (length && !draw(8)) length -= draw(length < 40 ? (uint32_t)length : 40);
    for (uint32_t i = draw(3); length && i-- > 0;) {
        uint32_t at = draw((uint32_t)length);
        stream[at] = (uint8_t)(draw(3) ? stream[draw((uint32_t)length)] : draw(256));
    }
}

static int read_file(const char *name) {
    FILE *file = fopen(name, "rb");
    if (file == NULL) return 0;
    size_t letters = strlen(name);
    edition = letters > 5 && strcmp(name + letters - 5, ".1993") == 0 ? PLAIN_1993 : PLAIN_1988;
    most = NO_LIMIT;
    length = fread(stream, 1, sizeof stream, file);
    return fclose(file) == 0;
}

/* Reads a file and holds the answers to each other. */
static int is_ready(const char *name) {
    if (!read_file(name)) return perror(name), 0;
    choose();
    const char *differs = difference();
    if (differs) fprintf(stderr, "%s: the answers differ: %s\n", name, differs);
    return !differs;
}

static int hold(const char *name, int damaged) {
    if (!is_ready(name)) return 0;
    for (int i = 0; i < damaged; i++) {
        if (!read_file(name)) return 0;
        damage();
        choose();
        if (entry_count && draw(2)) entries[draw(6 * (uint32_t)entry_count)] = draw((uint32_t)length + 2);
        const char *differs = difference();
        if (differs) return fprintf(stderr, "%s, damaged copy %d: the answers differ: %s\n", name, i, differs), 0;
    }
    return 1;
}

/* ---- measuring */

static double now(void) {
    struct timespec t;
    clock_gettime(CLOCK_PROCESS_CPUTIME_ID, &t);
    return (double)t.tv_sec + (double)t.tv_nsec * 1e-9;
}

static volatile uint32_t sink;

static double time_of(question ask, int times) {
    double begun = now();
    for (int i = 0; i < times; i++) sink += ask();
    return (now() - begun) / times;
}

/* How often it must be asked for half a millisecond; a longer measurement would seldom go by undisturbed. */
static int times_for(question ask) {
    int times = 1;
    while (times < 1 << 20 && time_of(ask, times) * times < 5e-4) times *= 2;
    return times;
}

/* So many rounds, or as many as a second has, if that is less. */
static void measure(int rounds, size_t pair, double best[2]) {
    int ours = times_for(pairs[pair].ours), theirs = times_for(pairs[pair].theirs);
    double until = now() + 1;
    best[0] = best[1] = 1e9;
    for (int i = 0; i < rounds && (i < 2 || now() < until); i++) {
        double a = time_of(pairs[pair].ours, ours), b = time_of(pairs[pair].theirs, theirs);
        if (a < best[0]) best[0] = a;
        if (b < best[1]) best[1] = b;
    }
}

static void measure_all(int rounds, size_t count) {
    printf("%zu", length);
    for (size_t pair = 0; pair < count; pair++) {
        double best[2];
        if (!pairs[pair].applies()) {
            printf(" -");
            continue;
        }
        measure(rounds, pair, best);
        if (pair == 0) printf(" %.3f", best[0] * 1e6);
        printf(" %.3f", best[0] / best[1]);
    }
    puts("");
    fflush(stdout);
}

/* Each was asked before, so that nothing is done for the first time. */
static void count_all(const char *name) {
    char label[512];
    for (size_t pair = 0; pair < PAIRS; pair++) {
        if (!pairs[pair].applies()) continue;
        for (int other = 0; other < 2; other++) {
            question ask = other ? pairs[pair].theirs : pairs[pair].ours;
            sink += ask();
            snprintf(label, sizeof label, "%s|%zu|%d", name, pair, other);
            CALLGRIND_ZERO_STATS;
            sink += ask();
            CALLGRIND_DUMP_STATS_AT(label);
        }
    }
}

int main(int count, char **words) {
    const char *mode = count > 1 ? words[1] : "";
    int number = count > 2 ? atoi(words[2]) : 0;
    if (strcmp(mode, "columns") == 0) {
        for (size_t pair = 0; pair < PAIRS; pair++) puts(pairs[pair].name);
        return 0;
    }
    int counts = strcmp(mode, "count") == 0, holds = strcmp(mode, "answers") == 0, only = strcmp(mode, "check") == 0;
    if (!counts && !holds && !(number > 0 && (only || strcmp(mode, "time") == 0))) return fputs("usage: see bench.c\n", stderr), 2;
    for (int i = counts ? 2 : 3; i < count; i++) {
        if (!(holds ? hold(words[i], number) : is_ready(words[i]))) return 1;
        if (counts) count_all(words[i]);
        else if (!holds) measure_all(number, only ? 1 : PAIRS);
    }
    return 0;
}
