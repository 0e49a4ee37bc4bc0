/* A plain C reader of the same rules, as a yardstick for speed: see plain.c. The answers are as in odif.h and pm1.h. */
#ifndef PLAIN_H
#define PLAIN_H

#include <stddef.h>
#include <stdint.h>

typedef struct {
    uint32_t number, place, headers, elements;
} plain_checked;

typedef struct {
    uint32_t number, place, elements, count;
} plain_listed;

typedef struct {
    uint32_t number, place, length;
} plain_written;

typedef struct {
    uint32_t number, place, first, past;
} plain_found;

typedef struct {
    uint32_t number, place, elements, lines, length;
} plain_text_read;

typedef struct {
    uint32_t number, place;
} plain_ordered;

enum { PLAIN_1988, PLAIN_1993 };     /* an edition */
enum { PLAIN_LAYOUT, PLAIN_LOGICAL }; /* a side */
enum { PLAIN_A, PLAIN_B };           /* a class */

plain_checked plain_check(int edition, const uint8_t *s, size_t n, uint32_t *table, size_t numbers);
/* A match is three numbers of the list. */
plain_listed plain_list(int edition, const uint8_t *s, size_t n, int side, uint32_t *table, size_t numbers, uint32_t *list,
                        size_t list_numbers);
plain_written plain_normal(int edition, const uint8_t *s, size_t n, uint8_t *out, size_t room);
plain_found plain_content(int edition, const uint8_t *s, size_t n, size_t element);

/* plain_more.c. A line is five numbers, an entry six, a page two. */
plain_text_read plain_text(int edition, const uint8_t *s, size_t n, int side, uint32_t *table, size_t numbers, uint32_t *lines,
                           size_t line_numbers, uint8_t *out, size_t room);
plain_ordered plain_order(int edition, const uint8_t *s, size_t n, int class);
plain_listed plain_pages(int edition, const uint8_t *s, size_t n, uint32_t *table, size_t numbers, uint32_t *list,
                         size_t list_numbers);
plain_written plain_make(const uint8_t *buffer, size_t n, const uint32_t *entries, size_t entry_numbers, uint8_t *out, size_t room);

#endif
