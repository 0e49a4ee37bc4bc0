/* odif.h: a reader of ODIF letters (CCITT T.415, ISO 8613-5, of 1988 and of 1993), proved to its contracts.

   Link with target/here/libodif.a, the library for the machine at hand. On Linux on x86-64 it is the proved archive itself,
   target/staticlib/libodif.a. `portable/build TARGET FOLDER` makes libraries for other machines of the module that this
   archive is compiled from: Linux on ARM, RISC-V and s390x, Windows, macOS, WebAssembly, and boxes with no system;
   `portable/build --list` has them, and on Linux on ARM target/here has that one. The proof is of the language's machine,
   and Rattle vouches for x86-64. The others are compiled from the same module and tested to answer alike; they rest
   besides on LLVM's back end for that machine, on the step that fits the module to it and on the C functions over it
   (docs/MACHINES.md says which are run and which are compiled alone). There is none for i386.

   The functions keep no state, allocate nothing and may be called from any number of threads at once. They take any
   octets whatever and read no octet outside the stream that is lent.

   What is lent is valid for the length that comes with it, aligned as its type asks, and no two lent parts overlap.
   The proof rests on that, and nothing checks it: odif_normal with the stream itself as its output answers 0 with
   wrong octets. A length of 0 may come with a null pointer.

   Every question judges the whole stream anew, so each costs what odif_check costs, and the contents of n text units
   asked for one by one cost n checks. odif_layout_text and odif_logical_text hand over all texts of a side with one.
   odif_normal measures an item before it writes it, so one at level 16 is passed over 16 times. A check takes time as the
   stream is long, some 3 ns an octet, whoever chose the names: a letter made to be slow takes some ten times as long as
   others of its length.

   Their scratch memory is on the stack. Of a small stream, which has up to 512 elements and up to 8,192 items in all, a
   question takes up to 40 KiB of it, the two lists up to 88 KiB and the two whole readings up to 120 KiB; of any other
   up to 256 KiB, the lists up to 304 KiB and the whole readings up to 336 KiB. It clears 31 kB of that for a small
   stream and 246 kB for any other, the lists and the whole readings somewhat more. Mind it where threads are started
   with small stacks, and on a box where nothing stops a stack that runs over: 128 KiB are enough for small streams
   alone. Whether a stream is small can be asked with less than 2 KiB: one of which odif_blocks_close counts up to 512
   headers has no more elements than that, and is small. odif_normal_short_lent takes less than 8 KiB of any stream: its
   scratch is lent by the caller.

   A question reads by the edition of 1988, and its twin with _1993 at its end by that of 1993. The octet rules are the
   same. In 1993 a text unit may have no content, or content in tiles, and there are four elements more, the protected
   parts: a sealed document profile, A9, an enciphered one, AA, and body parts that were enciphered before or after the
   layout, AB and AC. Every letter of 1988 is one of 1993 with the same rows and matches. A letter with a protected part
   is none of 1988: it is refused by 10 there, at the first such part, unless something before it is refused.

   Every answer begins with a number and, but for odif_taken, a place. Number 0 is accepted or answered, with place 0.
   Any other number is a refusal; places count octets of the stream from 0.

   no.  when                                                                          place
    1   the stream is over 1,048,576 octets; of odif_normal_short and                 0
        odif_normal_short_lent, over 65,535
    2   00 where no indefinite item is innermost, or 00 followed within the limit     the 00
        by another octet than 00
    3   an item at level 17                                                           the item
    4   a number over 16,383, under 31 in octets after the first, or with 80 as       the item
        the first of these
    5   a universal number in a form that it never has, or above 30                   the item
    6   a first length octet of 85 to FF, or 80 on a primitive                        the item
    7   a header, a value or the second 00 of a closing mark passes the limit;        the item, the 00,
        or an indefinite item reaches it unclosed                                     or the limit
    8   universal primitive: 1 not one octet, 5 not empty, 2 or 10 empty              the item
    9   the 4,097th element                                                           the element
   10   an octet that begins no element                                               the element
   11   the first element is no profile, a later one is, or the stream is empty       the element, or 0
   12   the contents of an element are not as tabled                                  the element
   13   an object type outside its range or not one octet                             the element
   14   an identifier or portion misspelt, or a 65th portion                          the element
   15   an identifier or portion twice                                                the later element
   16   the table has fewer rows than there are elements                              0
   17   the normal form is over 1,048,576 octets                                      0
   18   the output is shorter than the normal form, or than the text in UTF-8         0
   19   the list is shorter than the matches, or the lines are fewer                  0
   20   the asked element is no text unit or does not exist; or no such row           0
   21   a part is asked of content in pieces or tiles, which is no one part           0
        of the stream
   22   the output is shorter than the joined content, or than all texts of the side  0
   23   not exactly one date of the document in the profile, or it is constructed     0
   24   the first ten octets of the date name no day                                  0
   25   the list is shorter than the children                                         0
   26   the elements through this one begin no stream in the asked order; or          the element, or the
        only the end is missing                                                       stream's length
   27   a part of an entry is outside the buffer, or ends before it begins            the entry's number
   28   a block is past the total that was told                                       0
   29   a letter in blocks is closed before all its octets have come                  0
   31   the list is shorter than the sources                                          0
   32   the lent scratch is too small for the elements of the stream                  0

   1 comes first, then the first fault of 2 to 8 in stream order, then the elements in order, 9 to 15 in order within
   each, then 16, 17, 18, 19 or 20 where the question can give it; 21, 22 and 25 come after 20, 23, 24 and 26 after
   15; of a whole reading 22 comes after 19; 32 comes after 8 and before 9. A refusal leaves the lent table, list,
   lines and output as they were, except that 19 and 25 leave the finished table. Counts are 0 with a refusal, except
   that these two keep the element count and the check's header count comes with every answer.

   odif_make judges entries and no stream. Entries in order, from 0, and within one in this order, it gives 27; 14 for a
   bad identifier or portion, or both with a space between them over 64 octets; 15 for an identifier that an entry
   before has; 9 for entry 2,047; all with the entry's number as their place. Then 17 and 18 of the letter, at 0.

   Content is one octet string, 04, or is saved in pieces: 24, which holds 04 and 24 items down to the deepest level.
   Its octets are then the pieces joined in order. In 1993 it may be tiled: 30, which holds 04 and 24 items, and its
   octets are those of the tiles joined in order; or missing, and it has no octets then. odif_joined copies them, a 04
   being one piece; odif_content serves a 04 without a copy. A protected part is no text unit: asked for its content it
   is refused by 20. What is enciphered is not opened.

   The date of the document is the one item 80 in an A0 in an A3 of the profile, over all of these (T.415, 5.6): its first
   ten octets are four, two and two digits with hyphens between, as 1988-06-05, and name a day of the Gregorian calendar
   from 0001 on. What follows them is not judged. */
#ifndef ODIF_H
#define ODIF_H

#if defined __i386__ || defined _M_IX86
#error "there is no libodif for i386: in a struct a number of 64 bits stands at a multiple of 4 octets there, and of 8 in the library"
#endif

#include <stddef.h>
#include <stdint.h>

#ifdef __cplusplus
extern "C" {
#endif

/* Lent parts do not overlap. C compilers from 1999 on are told so, and some warn of a call that they see is wrong. */
#if !defined __cplusplus && defined __STDC_VERSION__ && __STDC_VERSION__ >= 199901L
#define ODIF_APART restrict
#else
#define ODIF_APART
#endif

/* A function whose body stands in this header. C before 1999 has no word for that, and gcc has one of its own. */
#if defined __cplusplus || defined __STDC_VERSION__ && __STDC_VERSION__ >= 199901L
#define ODIF_INLINE static inline
#elif defined __GNUC__
#define ODIF_INLINE static __inline__
#else
#define ODIF_INLINE static
#endif

/* The second number changes with what a caller is compiled against: a struct, a number, the row's width (before 1.0.0). */
#define ODIF_VERSION        "0.2.0"
#define ODIF_VERSION_NUMBER 200    /* 10,000 times the first number, 100 times the second, and the third */

#define ODIF_STREAM_LIMIT  1048576 /* the most octets of a stream, and of a normal form */
#define ODIF_MOST_ELEMENTS 4096    /* so many rows are always enough */
#define ODIF_ROW_WIDTH     13      /* the numbers of a row */
#define ODIF_NO_PARENT     65535   /* the parent's row where there is none */
#define ODIF_STACK         262144  /* octets of stack: no question but these below takes more */
#define ODIF_STACK_LISTS   311296  /* for the two lists, and the sources */
#define ODIF_STACK_TEXTS   344064  /* and for the two whole readings */
#define ODIF_STACK_MAKE    131072  /* and for odif_make */
#define ODIF_MOST_ENTRIES  2047    /* the most entries of a letter that is made */
#define ODIF_SHORT_LIMIT   65535   /* the most octets of a stream that odif_normal_short takes */
#define ODIF_STACK_LENT    8192    /* octets of stack: odif_normal_short_lent takes no more of any stream */
#define ODIF_UTF8_MOST     8       /* the most octets that odif_utf8 writes for one */

/* How much to lend. A side has no more matches than the letter has text units, nor than portions are listed on that
   side: a list of as many records, or as many lines, as there are text units never meets 19. An output as long as the
   stream never meets 18 of odif_normal_short, nor 22 of a whole reading: a text unit stands once on a side, so all its
   texts are no longer than the stream. As many sources as the check counts headers never meet 31. */

/* The scratch of odif_normal_short_lent: so many numbers of 32 bits for the rows and of 16 bits for the index are enough
   for a stream with so many elements; those for ODIF_MOST_ELEMENTS are enough for any, and with fewer 32 is given. An index is
   made for the least of 64, 128, 256, .. 4,096 elements that is no less. A stream has at most as many elements as
   odif_blocks_close counts headers, and at most half as many as it has octets. */
#define ODIF_LENT_ROWS(elements)  (12 * (size_t)(elements))
#define ODIF_LENT_INDEX(elements) (6 * ODIF_LENT_SIZE(elements) + 2)
#define ODIF_LENT_SIZE(elements) \
    ((elements) <= 64 ? (size_t)64 : (elements) <= 128 ? (size_t)128 : (elements) <= 256 ? (size_t)256 \
     : (elements) <= 512 ? (size_t)512 : (elements) <= 1024 ? (size_t)1024 : (elements) <= 2048 ? (size_t)2048 : (size_t)4096)

/* A small stream has no more elements and no more items than this; then less stack is enough. */
#define ODIF_SMALL_ELEMENTS    512
#define ODIF_SMALL_ITEMS       8192
#define ODIF_STACK_SMALL       40960
#define ODIF_STACK_SMALL_LISTS 90112
#define ODIF_STACK_SMALL_TEXTS 122880

/* What each number of a table row is. Each pair is first and past; every pair but the element's bounds a value. An
   absent one is 0 and 0. */
enum {
    ODIF_KIND             = 0,  /* 0 document profile, 1 layout class, 2 layout object, 3 text unit, 5 logical class,
                                   6 logical object, 7 presentation style, 8 layout style; in 1993 also
                                   9 sealed document profile, 10 enciphered document profile,
                                   11 pre-enciphered body part, 12 post-enciphered body part */
    ODIF_OBJECT_TYPE      = 1,  /* 0 to 4 for layout, 0 to 2 for logical, 255 if none */
    ODIF_FIRST            = 2,  /* the element, with its header and its closing mark */
    ODIF_PAST             = 3,
    ODIF_IDENTIFIER_FIRST = 4,  /* its identifier; for a text unit the layout identifier; none of kinds 9 to 12 */
    ODIF_IDENTIFIER_PAST  = 5,
    ODIF_LOGICAL_FIRST    = 6,  /* a text unit's logical identifier */
    ODIF_LOGICAL_PAST     = 7,
    ODIF_PORTIONS_FIRST   = 8,  /* the portions of a class or object */
    ODIF_PORTIONS_PAST    = 9,
    ODIF_CONTENT_FIRST    = 10, /* a text unit's content; if it is in pieces or tiles, the value of the 24 or 30 that
                                   holds them, with their headers; of kinds 10 to 12 the same of
                                   the enciphered information */
    ODIF_CONTENT_PAST     = 11,
    ODIF_PARENT           = 12  /* of kinds 1, 2, 5 and 6 the row of the class or object of the same side whose
                                   identifier is this one's without its last space and digits, which may come later;
                                   where nobody carries that one, and of every other kind, ODIF_NO_PARENT. The block
                                   of a text unit is in its match */
};

typedef struct {
    uint32_t number;   /* 0, or the refusal: 1 to 16 */
    uint32_t place;    /* the refusal's place */
    uint32_t headers;  /* the items that passed 2 to 8, also with a refusal; 0 after 1 */
    uint32_t elements; /* the rows filled */
} odif_checked;

typedef struct {
    uint32_t number;   /* 0, or the refusal: 1 to 15, 17, 18; of odif_make 9, 14, 15, 17, 18, 27;
                          of odif_normal_short_lent 1 to 15, 18, 32 */
    uint32_t place;    /* the refusal's place */
    uint32_t length;   /* the octets written */
} odif_written;

typedef struct {
    uint32_t number;   /* 0, or the refusal: 1 to 16, 19 */
    uint32_t place;    /* the refusal's place */
    uint32_t elements; /* the rows filled, also with 19 */
    uint32_t matches;  /* the records filled */
} odif_listed;

typedef struct {
    uint32_t number;   /* 0, or the refusal: 1 to 15, 20, 21 */
    uint32_t place;    /* the refusal's place */
    uint32_t first;    /* the content is stream[first] to stream[past - 1]; both are 0 with a refusal */
    uint32_t past;
} odif_found;

typedef struct {
    uint32_t number;   /* 0, or the refusal: 1 to 15, 20, 22 */
    uint32_t place;    /* the refusal's place */
    uint32_t length;   /* the octets copied */
} odif_copied;

typedef struct {
    uint32_t number;   /* 0, or the refusal: 1 to 16, 20, 25 */
    uint32_t place;    /* the refusal's place */
    uint32_t elements; /* the rows filled, also with 25 */
    uint32_t children; /* the numbers of the list filled */
} odif_related;

typedef struct {
    uint32_t number;   /* 0, or the refusal: 1 to 15, 23, 24 */
    uint32_t place;    /* the refusal's place */
    uint32_t first;    /* the date is stream[first] to stream[past - 1]; all of these are 0 with a refusal */
    uint32_t past;
    uint32_t year;     /* 1 to 9999 */
    uint32_t month;    /* 1 to 12 */
    uint32_t day;      /* 1 to the days of the month */
} odif_dated;

typedef struct {
    uint32_t number;   /* 0, or the refusal: 1 to 8, 10, 11, 23, 24 */
    uint32_t place;    /* the refusal's place */
    uint32_t first;    /* as in odif_dated */
    uint32_t past;
    uint32_t year;
    uint32_t month;
    uint32_t day;
    uint32_t unread;   /* always 1: what follows the first element is unread */
} odif_first_dated;

typedef struct {
    uint32_t number;   /* 0, or the refusal: 1 to 15, 26 */
    uint32_t place;    /* the refusal's place */
} odif_ordered;

/* One match: the text unit's identifier is the element's identifier, one space, the portion. All count from 0. */
typedef struct {
    uint32_t element;  /* the row of the class or object */
    uint32_t portion;  /* the portion's place in it */
    uint32_t unit;     /* the row of the text unit */
} odif_match;

typedef struct {
    uint32_t number;   /* 0, or the refusal: 1 to 16, 19, 22 */
    uint32_t place;    /* the refusal's place */
    uint32_t elements; /* the rows filled, also with 19 */
    uint32_t lines;    /* the lines filled */
    uint32_t length;   /* the octets written */
} odif_text_read;

/* One line of a whole reading: a match, and its text. All count from 0. */
typedef struct {
    uint32_t element;  /* as in odif_match */
    uint32_t portion;
    uint32_t unit;
    uint32_t first;    /* the text is out[first] to out[past - 1] */
    uint32_t past;     /* where the next line's text begins */
} odif_line;

typedef struct {
    uint32_t number;   /* 0, or the refusal: 1 to 15, 31 */
    uint32_t place;    /* the refusal's place */
    uint32_t lines;    /* the lines of the side */
    uint32_t sources;  /* the records filled */
} odif_sourced;

/* One source of a whole reading: which octets of the stream are shown in which line. All count from 0. */
typedef struct {
    uint32_t line;     /* the line of odif_layout_text, or of odif_logical_text */
    uint32_t first;    /* the octets are stream[first] to stream[past - 1] */
    uint32_t past;
} odif_source;

/* One entry of a letter that is made: where its identifier, its portion and its text stand in the buffer. Each is from
   first to past - 1; parts may overlap one another. */
typedef struct {
    uint32_t identifier_first;
    uint32_t identifier_past;
    uint32_t portion_first;
    uint32_t portion_past;
    uint32_t text_first;
    uint32_t text_past;
} odif_entry;

/* Checks a stream and fills one row an element. table_len counts numbers; numbers past the last row filled stay, and
   an incomplete last row is not used. */
odif_checked odif_check(const uint8_t *ODIF_APART stream, size_t stream_len,
                        uint32_t *ODIF_APART table, size_t table_len);

/* Writes the normal form: the same items in the same order, each length definite and as short as can be. Octets of out
   past it stay. */
odif_written odif_normal(const uint8_t *ODIF_APART stream, size_t stream_len,
                         uint8_t *ODIF_APART out, size_t out_len);

/* Fills the table and the reading list of the layout side: every match, in stream order of the elements and then in
   the order of their portions. list_len counts records; records past the last one filled stay. */
odif_listed odif_layout(const uint8_t *ODIF_APART stream, size_t stream_len,
                        uint32_t *ODIF_APART table, size_t table_len,
                        odif_match *ODIF_APART list, size_t list_len);

/* Of the logical side. */
odif_listed odif_logical(const uint8_t *ODIF_APART stream, size_t stream_len,
                         uint32_t *ODIF_APART table, size_t table_len,
                         odif_match *ODIF_APART list, size_t list_len);

/* The whole reading of the layout side, with one judging: fills the table as odif_layout does; puts the contents of the
   text units of its matches to out, in the list's order, one after another, each as odif_joined copies it; and fills a
   line for each match. Every octet of out up to the length is an octet of a text unit of this stream, and none that was
   there before shows. lines_len counts numbers, five a line in the order of odif_line, and an incomplete last line is
   not used; lines and octets past the last one filled stay. It takes time as the stream is long. */
odif_text_read odif_layout_text_numbers(const uint8_t *ODIF_APART stream, size_t stream_len,
                                    uint32_t *ODIF_APART table, size_t table_len,
                                    uint32_t *ODIF_APART lines, size_t lines_len,
                                    uint8_t *ODIF_APART out, size_t out_len);

/* Of the logical side. */
odif_text_read odif_logical_text_numbers(const uint8_t *ODIF_APART stream, size_t stream_len,
                                     uint32_t *ODIF_APART table, size_t table_len,
                                     uint32_t *ODIF_APART lines, size_t lines_len,
                                     uint8_t *ODIF_APART out, size_t out_len);

/* Where each octet of the whole reading of the layout side stands: fills a record for each piece of a text unit that has
   octets, line by line in the order of odif_layout_text and piece by piece in each line. The octets of the stream at these
   places, one after another, are what odif_layout_text puts to out; those of a line are its text. Each place lies in the
   content fields of the line's unit, places ascend in a line, and no octet of the stream is in two records. list_len counts
   numbers, three a record in the order of odif_source, and an incomplete last record is not used; records past the last
   one filled stay. Nothing but the list is lent. */
odif_sourced odif_layout_sources_numbers(const uint8_t *ODIF_APART stream, size_t stream_len,
                                         uint32_t *ODIF_APART list, size_t list_len);

/* Of the logical side. */
odif_sourced odif_logical_sources_numbers(const uint8_t *ODIF_APART stream, size_t stream_len,
                                          uint32_t *ODIF_APART list, size_t list_len);

/* Writes the normal form of a stream of at most 65,535 octets, for machines with little memory: 1 is given where the
   stream is longer, and never 17. There the normal form is never longer than the stream. A program that asks no other
   question and is linked with --gc-sections has no code for 17. */
odif_written odif_normal_short(const uint8_t *ODIF_APART stream, size_t stream_len,
                               uint8_t *ODIF_APART out, size_t out_len);

/* The same in scratch that the caller lends, for a box where a stack is small or nothing stops one that runs over: it takes
   no more stack than ODIF_STACK_LENT. It answers as odif_normal_short, but with 32 where the lent numbers are too few for
   the stream's elements, at most 4,096 of which are counted: fewer than ODIF_LENT_ROWS of them for the rows, or than
   ODIF_LENT_INDEX for the index. 32 comes after 8 and before 9. The scratch may hold anything before, and what it holds
   after is left open, whatever the answer. */
odif_written odif_normal_short_lent(const uint8_t *ODIF_APART stream, size_t stream_len,
                                    uint8_t *ODIF_APART out, size_t out_len,
                                    uint32_t *ODIF_APART rows, size_t rows_len,
                                    uint16_t *ODIF_APART index, size_t index_len);

/* Finds the content of the text unit in row `element`, which may be any number. Content in pieces is refused by 21. */
odif_found odif_content(const uint8_t *stream, size_t stream_len, uint32_t element);

/* Copies the content of the text unit in row `element`, which may be any number: its pieces joined in order. Octets of
   out past it stay. As many octets as the row's content has are always enough. */
odif_copied odif_joined(const uint8_t *ODIF_APART stream, size_t stream_len, uint32_t element,
                        uint8_t *ODIF_APART out, size_t out_len);

/* Fills the table and the list of the children of a row, which may be any number: the rows whose parent it is, in
   stream order. list_len counts numbers; those past the last one filled stay. As many as there are elements are always
   enough. Climbing from parent to parent ends in at most 32 moves, and no row is its own ancestor. */
odif_related odif_children(const uint8_t *ODIF_APART stream, size_t stream_len, uint32_t row,
                           uint32_t *ODIF_APART table, size_t table_len,
                           uint32_t *ODIF_APART list, size_t list_len);

/* Whether the elements stand in the order of interchange class A (7.2 of T.415 of 1993) or of class B (7.3), whatever
   class the profile names. In class A text units stand in two groups, after all classes and after all objects; in class
   B right after the class or object that lists their portions. In both every portion has its unit in the end. odif_check
   accepts either order, and neither. Nothing but the stream is lent. */
odif_ordered odif_order_a(const uint8_t *stream, size_t stream_len);
odif_ordered odif_order_b(const uint8_t *stream, size_t stream_len);

/* Finds the date of the document. */
odif_dated odif_date(const uint8_t *stream, size_t stream_len);

/* Finds the date of the document by the first element alone: rules 1 to 8, 10 and 11 are tried on that, and no octet after
   it is read. Of a letter it is what odif_date finds. The front of a stream is enough, if the first element is whole in it;
   else 7 is given, or what stands there is refused. It takes time as the first element is long, and little stack. */
odif_first_dated odif_first_date(const uint8_t *stream, size_t stream_len);

/* These questions by the edition of 1993. */
odif_checked odif_check_1993(const uint8_t *ODIF_APART stream, size_t stream_len,
                             uint32_t *ODIF_APART table, size_t table_len);
odif_written odif_normal_1993(const uint8_t *ODIF_APART stream, size_t stream_len,
                              uint8_t *ODIF_APART out, size_t out_len);
odif_listed odif_layout_1993(const uint8_t *ODIF_APART stream, size_t stream_len,
                             uint32_t *ODIF_APART table, size_t table_len,
                             odif_match *ODIF_APART list, size_t list_len);
odif_listed odif_logical_1993(const uint8_t *ODIF_APART stream, size_t stream_len,
                              uint32_t *ODIF_APART table, size_t table_len,
                              odif_match *ODIF_APART list, size_t list_len);
odif_written odif_normal_short_1993(const uint8_t *ODIF_APART stream, size_t stream_len,
                                    uint8_t *ODIF_APART out, size_t out_len);
odif_written odif_normal_short_lent_1993(const uint8_t *ODIF_APART stream, size_t stream_len,
                                         uint8_t *ODIF_APART out, size_t out_len,
                                         uint32_t *ODIF_APART rows, size_t rows_len,
                                         uint16_t *ODIF_APART index, size_t index_len);
odif_found odif_content_1993(const uint8_t *stream, size_t stream_len, uint32_t element);
odif_copied odif_joined_1993(const uint8_t *ODIF_APART stream, size_t stream_len, uint32_t element,
                             uint8_t *ODIF_APART out, size_t out_len);
odif_related odif_children_1993(const uint8_t *ODIF_APART stream, size_t stream_len, uint32_t row,
                                uint32_t *ODIF_APART table, size_t table_len,
                                uint32_t *ODIF_APART list, size_t list_len);
odif_ordered odif_order_a_1993(const uint8_t *stream, size_t stream_len);
odif_ordered odif_order_b_1993(const uint8_t *stream, size_t stream_len);
odif_dated odif_date_1993(const uint8_t *stream, size_t stream_len);
odif_first_dated odif_first_date_1993(const uint8_t *stream, size_t stream_len);

odif_text_read odif_layout_text_numbers_1993(const uint8_t *ODIF_APART stream, size_t stream_len,
                                         uint32_t *ODIF_APART table, size_t table_len,
                                         uint32_t *ODIF_APART lines, size_t lines_len,
                                         uint8_t *ODIF_APART out, size_t out_len);
odif_text_read odif_logical_text_numbers_1993(const uint8_t *ODIF_APART stream, size_t stream_len,
                                          uint32_t *ODIF_APART table, size_t table_len,
                                          uint32_t *ODIF_APART lines, size_t lines_len,
                                          uint8_t *ODIF_APART out, size_t out_len);

odif_sourced odif_layout_sources_numbers_1993(const uint8_t *ODIF_APART stream, size_t stream_len,
                                              uint32_t *ODIF_APART list, size_t list_len);
odif_sourced odif_logical_sources_numbers_1993(const uint8_t *ODIF_APART stream, size_t stream_len,
                                               uint32_t *ODIF_APART list, size_t list_len);

/* The whole readings with so many lines. */
ODIF_INLINE odif_text_read odif_layout_text(const uint8_t *ODIF_APART stream, size_t stream_len,
                                        uint32_t *ODIF_APART table, size_t table_len,
                                        odif_line *ODIF_APART lines, size_t lines_len,
                                        uint8_t *ODIF_APART out, size_t out_len) {
    return odif_layout_text_numbers(stream, stream_len, table, table_len, (uint32_t *)lines, 5 * lines_len,
        out, out_len);
}
ODIF_INLINE odif_text_read odif_logical_text(const uint8_t *ODIF_APART stream, size_t stream_len,
                                         uint32_t *ODIF_APART table, size_t table_len,
                                         odif_line *ODIF_APART lines, size_t lines_len,
                                         uint8_t *ODIF_APART out, size_t out_len) {
    return odif_logical_text_numbers(stream, stream_len, table, table_len, (uint32_t *)lines, 5 * lines_len,
        out, out_len);
}
ODIF_INLINE odif_text_read odif_layout_text_1993(const uint8_t *ODIF_APART stream, size_t stream_len,
                                             uint32_t *ODIF_APART table, size_t table_len,
                                             odif_line *ODIF_APART lines, size_t lines_len,
                                             uint8_t *ODIF_APART out, size_t out_len) {
    return odif_layout_text_numbers_1993(stream, stream_len, table, table_len, (uint32_t *)lines, 5 * lines_len,
        out, out_len);
}
ODIF_INLINE odif_text_read odif_logical_text_1993(const uint8_t *ODIF_APART stream, size_t stream_len,
                                              uint32_t *ODIF_APART table, size_t table_len,
                                              odif_line *ODIF_APART lines, size_t lines_len,
                                              uint8_t *ODIF_APART out, size_t out_len) {
    return odif_logical_text_numbers_1993(stream, stream_len, table, table_len, (uint32_t *)lines, 5 * lines_len,
        out, out_len);
}

/* The sources with so many records. */
ODIF_INLINE odif_sourced odif_layout_sources(const uint8_t *ODIF_APART stream, size_t stream_len,
                                             odif_source *ODIF_APART list, size_t list_len) {
    return odif_layout_sources_numbers(stream, stream_len, (uint32_t *)list, 3 * list_len);
}
ODIF_INLINE odif_sourced odif_logical_sources(const uint8_t *ODIF_APART stream, size_t stream_len,
                                              odif_source *ODIF_APART list, size_t list_len) {
    return odif_logical_sources_numbers(stream, stream_len, (uint32_t *)list, 3 * list_len);
}
ODIF_INLINE odif_sourced odif_layout_sources_1993(const uint8_t *ODIF_APART stream, size_t stream_len,
                                                  odif_source *ODIF_APART list, size_t list_len) {
    return odif_layout_sources_numbers_1993(stream, stream_len, (uint32_t *)list, 3 * list_len);
}
ODIF_INLINE odif_sourced odif_logical_sources_1993(const uint8_t *ODIF_APART stream, size_t stream_len,
                                                   odif_source *ODIF_APART list, size_t list_len) {
    return odif_logical_sources_numbers_1993(stream, stream_len, (uint32_t *)list, 3 * list_len);
}

/* Makes a letter of entries, which lie apart from the output as all that is lent does: an empty profile, and for each
   entry a block with the identifier and that one portion, and a text unit with the text. It is accepted, its layout list
   has the entries in their order and no others, and it is its own normal form. The output and the buffer may not
   overlap. Octets of out past the letter stay. No more than 2,047 entries fit. The numbers of the entries are those of
   odif_entry, six an entry; entries_len counts numbers, and an incomplete last entry is not used. It takes up to 128 KiB
   of stack, of which it clears 7 kB for up to 128 entries, and 107 kB for more. */
odif_written odif_make_numbers(const uint8_t *ODIF_APART buffer, size_t buffer_len,
                               const uint32_t *ODIF_APART entries, size_t entries_len,
                               uint8_t *ODIF_APART out, size_t out_len);

/* odif_make_numbers, of so many entries. */
ODIF_INLINE odif_written odif_make(const uint8_t *ODIF_APART buffer, size_t buffer_len,
                                   const odif_entry *ODIF_APART entries, size_t entries_len,
                                   uint8_t *ODIF_APART out, size_t out_len) {
    return odif_make_numbers(buffer, buffer_len, (const uint32_t *)entries, 6 * entries_len, out, out_len);
}

/* The sets of characters that odif_utf8 knows. */
enum {
    ODIF_ISO6937 = 0,  /* and any number from 3 on */
    ODIF_T61     = 1,
    ODIF_LATIN1  = 2   /* ISO 8859-1 */
};

typedef struct {
    uint32_t number;   /* 0, or 18 */
    uint32_t place;    /* 0 */
    uint32_t length;   /* the octets written */
    uint32_t numbers;  /* how many octets of the text were shown by their number */
} odif_shown;

/* Shows the octets of a text as UTF-8. Every octet is shown, in order: as its character, as a part of a character of two
   octets (an accent stands before its letter in ISO 6937 and T.61; CR LF is an end of a line), or by its number, as
   U+27E6, two hexadecimal digits, U+27E7, where the set has no character for it: so are controls but TAB, LF and FF, a CR
   that no LF follows, an accent that no letter and no space follows, and an escape. An accent and its letter are composed
   where Unicode has such a character, else they are the letter and a combining accent. Which set a text is in is for the
   caller to know. 18 where the output is shorter, or the text is over 4,294,967,295 octets: the output is as it was then.
   Octets past the text stay. Eight octets for each octet are always enough. It asks about no stream, so it has no twin. A
   text may be cut between two octets and shown in parts, where as many are shown by their number as of each alone. It
   takes less than 4 KiB of stack. */
odif_shown odif_utf8(uint32_t set, const uint8_t *ODIF_APART octets, size_t octets_len,
                     uint8_t *ODIF_APART out, size_t out_len);

/* A letter that arrives in blocks and is not held: rules 1 to 8 and the header count, as odif_check gives them of the
   whole stream, for any cutting. Start with the total, hand over the blocks in order, of any length, none included, and
   close:

       odif_taken now = odif_blocks_start(total);
       while (...) now = odif_blocks_take(now.state, block, block_len);
       odif_walked walked = odif_blocks_close(now.state);

   The state is this struct and nothing else, with no pointer in it: copy it, keep it, go on from a copy. Its numbers
   are the engine's own. A caller who makes one up is answered too: where it can't be gone on with, as with a finding that
   is none of 1 to 8, 28 with that state, and 29. The three functions take less than 2 KiB of stack. */
typedef struct {
    uint64_t total;    /* the octets told, and those that have come */
    uint64_t taken;
    uint64_t at;       /* where the next header stands, and how many items are open there */
    uint64_t level;
    uint32_t headers;  /* the items that passed 2 to 8 */
    uint32_t number;   /* the finding, 1 to 8, and its place; 0 if there is none yet */
    uint32_t place;
    uint32_t have;     /* the octets of the next header that have come */
    uint32_t ends[16]; /* twice the end of each open item, and 1 more if it waits for its closing mark */
    uint8_t  begun[8];
} odif_blocks;

#define ODIF_BLOCKS_SIZE 120 /* the octets of an odif_blocks, on every machine */

typedef struct {
    uint32_t    number; /* 0; 1 from the start; 28 from a block */
    odif_blocks state;
} odif_taken;

typedef struct {
    uint32_t number;   /* 0; the first fault of 1 to 8; or 29 */
    uint32_t place;    /* its place */
    uint32_t headers;  /* the items that passed 2 to 8, also with a fault; 0 after 1 and 29 */
} odif_walked;

/* A letter of so many octets, of which none has come. 1 if they are over 1,048,576; the state can still be gone on
   with: blocks are counted, and the close gives 1. */
odif_taken odif_blocks_start(size_t total);

/* Takes a block. 28 if it is past the total: then the state is as it was, and what came before stands. A fault that was
   found stays, and later octets are counted. */
odif_taken odif_blocks_take(odif_blocks state, const uint8_t *block, size_t block_len);

/* What the walk of the letter tells. 29 if not all octets have come, whatever was found: the state can be gone on
   with. */
odif_walked odif_blocks_close(odif_blocks state);

/* The sentence of a number of the list above, without a full stop; 0 and numbers past the list have one too. This function
   and the two after it are C and no part of the proved archive: compile odif_sentence.c, which stands beside this header,
   with your program, or link with an installed library. */
const char *odif_sentence(uint32_t number);

/* ODIF_VERSION as the library has it. A program that loads a shared library compares it with the ODIF_VERSION that it was
   compiled with: where the first two numbers differ, structs or rows do. */
const char *odif_version(void);

/* The SHA-256 of the proved archive that an installed library is made of, as 64 hexadecimal digits; an empty string where
   odif_sentence.c was compiled without being told it. The archive is reproducible: `packaging/archive odif` of one
   state of the sources gave one archive, octet for octet, in every folder in which it was run. */
const char *odif_identity(void);

#ifdef __cplusplus
}
#endif

#endif
