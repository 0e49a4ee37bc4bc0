/* Headers, the walk of a stream, and the items of one that was walked: what the plain reader's questions share. */
#ifndef PLAIN_ITEMS_H
#define PLAIN_ITEMS_H

#include <stddef.h>
#include <stdint.h>

enum { STREAM_LIMIT = 1048576, DEEPEST = 16, MOST_ELEMENTS = 4096, MOST_PORTIONS = 64, ROW_WIDTH = 13, NO_PARENT = 65535 };

#define NOWHERE UINT32_MAX

/* ---- headers: 3 to 8 */

enum { PRIMITIVE = 1, CONSTRUCTED = 2, BOTH = 3 };

/* the forms of the universal numbers 0 to 30 */
static const uint8_t FORMS[31] = {
    0, PRIMITIVE, PRIMITIVE, BOTH, BOTH, PRIMITIVE, PRIMITIVE, BOTH, CONSTRUCTED, PRIMITIVE, PRIMITIVE, BOTH, 0, 0, 0, 0,
    CONSTRUCTED, CONSTRUCTED, BOTH, BOTH, BOTH, BOTH, BOTH, BOTH, BOTH, BOTH, BOTH, BOTH, 0, 0, 0,
};

/* A header: its type field as one number, the first octet and 256 times those after it; the value's bounds; whether it
   ends by a closing mark, and then `end` is the limit; and 0 or the refusal. */
typedef struct {
    uint32_t code, start, end;
    int marked;
    uint32_t number;
} head;

static inline head refused(uint32_t number) {
    head h = {0, 0, 0, 0, number};
    return h;
}

/* The octets of a type field after the first: the place past them, or 0 and the refusal. */
static inline uint32_t read_number(const uint8_t *s, uint32_t at, uint32_t limit, uint32_t *code, uint32_t *number) {
    *number = 7;
    if (at >= limit) return 0;
    uint32_t second = s[at++];
    *number = 4;
    if (second < 31 || second == 0x80) return 0;
    *code |= second << 8;
    if (second > 0x80) {
        *number = 7;
        if (at >= limit) return 0;
        *number = 4;
        if (s[at] >= 0x80) return 0;
        *code |= (uint32_t)s[at++] << 16;
    }
    *number = 5; /* of a universal number, once it was read whole */
    return *code & 0xC0 ? at : 0;
}

static inline head read_head(const uint8_t *s, uint32_t at, uint32_t limit, int level) {
    uint32_t octet = s[at], code = octet, from = at + 1, number;
    if (level > DEEPEST) return refused(3);
    if ((octet & 31) == 31) {
        from = read_number(s, from, limit, &code, &number);
        if (!from) return refused(number);
    } else if (octet < 64 && !(FORMS[octet & 31] & (octet & 32 ? CONSTRUCTED : PRIMITIVE))) {
        return refused(5);
    }
    if (from >= limit) return refused(7);
    uint32_t length = s[from], start = from + 1;
    if (length >= 0x80) {
        uint32_t further = length - 0x80;
        if (length >= 0x85 || (further == 0 && !(octet & 32))) return refused(6);
        if (further == 0) {
            head indefinite = {code, start, limit, 1, 0};
            return indefinite;
        }
        if (further > limit - start) return refused(7);
        length = 0;
        for (uint32_t i = 0; i < further; i++) length = length << 8 | s[start + i];
        start += further;
    }
    if (length > limit - start) return refused(7);
    if ((code == 1 && length != 1) || (code == 5 && length) || ((code == 2 || code == 10) && !length)) return refused(8);
    head definite = {code, start, start + length, 0, 0};
    return definite;
}

/* The same of an item that was walked: nothing is judged. */
static inline head passed_head(const uint8_t *s, uint32_t at, uint32_t limit) {
    uint32_t code = s[at++];
    if ((code & 31) == 31) {
        code |= (uint32_t)s[at] << 8;
        if (s[at++] > 0x80) code |= (uint32_t)s[at++] << 16;
    }
    uint32_t length = s[at++];
    if (length >= 0x80) {
        uint32_t further = length - 0x80;
        if (further == 0) {
            head indefinite = {code, at, limit, 1, 0};
            return indefinite;
        }
        for (length = 0; further--;) length = length << 8 | s[at++];
    }
    head definite = {code, at, at + length, 0, 0};
    return definite;
}

/* ---- items of a stream that was walked */

typedef struct {
    uint32_t code, first, start, end, past;
} item;

/* Past the closing mark of a run. */
static uint32_t past_mark(const uint8_t *s, uint32_t at, uint32_t limit) {
    while (s[at]) {
        head h = passed_head(s, at, limit);
        at = h.marked ? past_mark(s, h.start, limit) : h.end;
    }
    return at + 2;
}

/* The item at a place of a run that is bounded by its length, or 0 where the run is over. */
static inline int next_item(const uint8_t *s, uint32_t at, uint32_t limit, item *it) {
    if (at >= limit) return 0;
    head h = passed_head(s, at, limit);
    it->code = h.code;
    it->first = at;
    it->start = h.start;
    it->end = it->past = h.end;
    if (h.marked) {
        it->past = past_mark(s, h.start, limit);
        it->end = it->past - 2;
    }
    return 1;
}

#define EACH(it, in) for (uint32_t at_ = (in).start; next_item(s, at_, (in).end, &(it)); at_ = (it).past)

/* ---- a letter that was judged: one at a time, in one static place */

typedef struct {
    uint32_t number, place, headers, elements;
    uint32_t rows[MOST_ELEMENTS][ROW_WIDTH];
    uint8_t holder[MOST_ELEMENTS]; /* what holds the content of a text unit: 04, 24, 30, or 0 */
    uint32_t matches[MOST_ELEMENTS][3];
} plain_letter;

extern plain_letter letter;

void judge(const uint8_t *s, size_t n, int edition);
/* Fills the table of a letter that was judged: 0, or the refusal. */
uint32_t fill(const uint8_t *s, uint32_t *table, size_t numbers);
/* How many matches a side has; they stand in the letter then. */
uint32_t find_matches(const uint8_t *s, int side);
int is_identifier(const uint8_t *v, uint32_t n);
int is_portion(const uint8_t *v, uint32_t n);
/* Enters a name into the names of elements, or says that it stands there; the names are to be cleared for so many. */
void clear_names(uint32_t most);
int enter_object(const uint8_t *s, uint32_t first, uint32_t past, uint32_t row);

/* ---- lengths */

static inline uint32_t length_octets(uint32_t n) { return n < 128 ? 1 : n < 256 ? 2 : n < 65536 ? 3 : n < 16777216 ? 4 : 5; }

static inline uint8_t *put_length(uint8_t *out, uint32_t n) {
    uint32_t octets = length_octets(n);
    if (octets > 1) *out++ = (uint8_t)(0x80 + octets - 1);
    for (uint32_t i = octets > 1 ? octets - 1 : 1; i--;) *out++ = (uint8_t)(n >> 8 * i);
    return out;
}

#endif
