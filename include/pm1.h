/* pm1.h: the PM1 desk, a question over the reader of odif.h: which pages of a letter are within PM1 (CCITT T.502, table
   10), proved to its contract.

   Link with target/here/libpm1.a, and with libodif.a beside it, in either order, if the questions of odif.h are
   asked too: each archive shows the names of its own header alone. Installed, `pkg-config --libs pm1` names both. What odif.h says of its functions holds for these:
   no state, nothing allocated, any octets whatever, and what is lent is valid, aligned and apart. On the stack they
   take no more than ODIF_STACK, and of a small stream no less than of a large one.

   A page is a layout object, kind 2, or a layout class, kind 1, with object type 2. Its dimensions are the item A4 among
   the direct items of its 31, and that holds two items 80: horizontal and vertical, integers of one to four octets in
   two's complement, with no octet more than they need, in basic measurement units. docs/PM1.md has the table.

   Refusals 1 to 15 are those of odif.h, then 16 for the table, which has fewer rows than there are elements; then 30, the
   list is shorter than the pages: its place is 0, the list is as it was, the table is finished, and the element count is
   kept. With any other refusal table and list are as they were, and all counts are 0. */
#ifndef PM1_H
#define PM1_H

#include "odif.h"

#ifdef __cplusplus
extern "C" {
#endif

/* The verdict on a page. */
enum {
    PM1_NONE          = 0, /* it has no dimensions */
    PM1_ESSENTIAL     = 1, /* within 9240 by 12400, or turned */
    PM1_NON_ESSENTIAL = 2, /* else within 9920 by 14030, 10200 by 13200 or 14030 by 19840, or one of these turned */
    PM1_OUTSIDE       = 3, /* within none of these, or a number is under 1 */
    PM1_NOT_FIXED     = 4  /* anything but two fixed numbers, or a second A4 */
};

/* One record of the list: a page, and the verdict on it. */
typedef struct {
    uint32_t element;  /* its row in the table, from 0 */
    uint32_t verdict;  /* one of the five above */
} pm1_page;

typedef struct {
    uint32_t number;   /* 0, or the refusal: 1 to 16, 30 */
    uint32_t place;    /* the refusal's place */
    uint32_t elements; /* the rows filled, also with 30 */
    uint32_t pages;    /* the records filled */
} pm1_listed;

#define PM1_LIST_TOO_SHORT 30 /* the refusal of a list that is shorter than the pages */

/* Fills the table as odif_check does, and the list with a record for each page and page class, in stream order. list_len
   counts numbers, two a record in the order of pm1_page, and an incomplete last record is not used; records past the
   pages keep what they had. A list of as many records as there are elements never meets 30. */
pm1_listed pm1_pages_numbers(const uint8_t *ODIF_APART stream, size_t stream_len,
                             uint32_t *ODIF_APART table, size_t table_len,
                             uint32_t *ODIF_APART list, size_t list_len);

/* The same question by the edition of 1993. */
pm1_listed pm1_pages_numbers_1993(const uint8_t *ODIF_APART stream, size_t stream_len,
                                  uint32_t *ODIF_APART table, size_t table_len,
                                  uint32_t *ODIF_APART list, size_t list_len);

/* Both with so many records. */
ODIF_INLINE pm1_listed pm1_pages(const uint8_t *ODIF_APART stream, size_t stream_len,
                                 uint32_t *ODIF_APART table, size_t table_len,
                                 pm1_page *ODIF_APART list, size_t list_len) {
    return pm1_pages_numbers(stream, stream_len, table, table_len, (uint32_t *)list, 2 * list_len);
}
ODIF_INLINE pm1_listed pm1_pages_1993(const uint8_t *ODIF_APART stream, size_t stream_len,
                                      uint32_t *ODIF_APART table, size_t table_len,
                                      pm1_page *ODIF_APART list, size_t list_len) {
    return pm1_pages_numbers_1993(stream, stream_len, table, table_len, (uint32_t *)list, 2 * list_len);
}

/* What odif_identity is to libodif: the SHA-256 of the proved archive libpm1.a. It is C and no part of that archive: an
   installed library has it, and pm1_identity.c stands beside this header. */
const char *pm1_identity(void);

#ifdef __cplusplus
}
#endif

#endif
