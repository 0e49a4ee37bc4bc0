/* The questions of the plain reader that came after the first ones: the whole text, the order, the pages, the letter that is
   made. A question more stands here beside them, and gets a row of `pairs` in bench.c. */
#include <string.h>
#include "plain.h"
#include "plain_items.h"

/* ---- the whole text of a side */

/* Copies the pieces in a holder, or only counts their octets. */
static uint32_t join(const uint8_t *s, const item *holder, uint8_t *out) {
    uint32_t length = 0;
    item it;
    EACH(it, *holder) {
        uint32_t n = it.end - it.start;
        if (it.code & 32) n = join(s, &it, out ? out + length : NULL);
        else if (out) memcpy(out + length, s + it.start, n);
        length += n;
    }
    return length;
}

static uint32_t text_of(const uint8_t *s, uint32_t number, uint8_t *out) {
    const uint32_t *row = letter.rows[number];
    item holder = {letter.holder[number], 0, row[10], row[11], 0};
    if (holder.code & 32) return join(s, &holder, out);
    if (out) memcpy(out, s + holder.start, holder.end - holder.start);
    return holder.end - holder.start;
}

plain_text_read plain_text(int edition, const uint8_t *s, size_t n, int side, uint32_t *table, size_t numbers, uint32_t *lines,
                           size_t line_numbers, uint8_t *out, size_t room) {
    plain_text_read r = {0, 0, 0, 0, 0};
    uint32_t total = 0;
    judge(s, n, edition);
    r.place = letter.place;
    r.number = letter.number ? letter.number : numbers / ROW_WIDTH < letter.elements ? 16 : 0;
    if (r.number) return r;
    uint32_t count = find_matches(s, side);
    if (line_numbers / 5 < count) {
        fill(s, table, numbers);
        r.number = 19;
        r.elements = letter.elements;
        return r;
    }
    for (uint32_t i = 0; i < count; i++) total += text_of(s, letter.matches[i][2], NULL);
    if (room < total) {
        r.number = 22;
        return r;
    }
    fill(s, table, numbers);
    for (uint32_t i = 0; i < count; i++) {
        memcpy(lines + 5 * i, letter.matches[i], sizeof *letter.matches);
        lines[5 * i + 3] = r.length;
        lines[5 * i + 4] = r.length += text_of(s, letter.matches[i][2], out + r.length);
    }
    r.elements = letter.elements;
    r.lines = count;
    return r;
}

/* ---- the order of a class: 26 */

typedef struct {
    uint16_t portions, late; /* how many it lists; whether a unit before it represents one of them */
    uint32_t before;         /* the portions that elements of its kind list before it */
    uint16_t owner[2], place[2]; /* of a unit, on either side: whose portion it represents, and which, from 1; or 0 */
} seen;

static seen looks[MOST_ELEMENTS];

static void look(const uint8_t *s) {
    uint32_t listed[32] = {0};
    for (uint32_t e = 0; e < letter.elements; e++) {
        const uint32_t *row = letter.rows[e];
        item holder = {0xA1, 0, row[8], row[9], 0}, it;
        memset(&looks[e], 0, sizeof *looks);
        EACH(it, holder) looks[e].portions++;
        looks[e].before = listed[row[0]];
        listed[row[0]] += looks[e].portions;
    }
    for (int side = 0; side < 2; side++) {
        uint32_t count = find_matches(s, side);
        for (uint32_t i = 0; i < count; i++) {
            const uint32_t *match = letter.matches[i];
            looks[match[2]].owner[side] = (uint16_t)match[0];
            looks[match[2]].place[side] = (uint16_t)(match[1] + 1);
            if (match[2] < match[0]) looks[match[0]].late = 1;
        }
    }
}

/* A portion that no unit can ever represent. */
static int hopeless(uint32_t e) { return looks[e].portions && !letter.rows[e][5]; }

enum { UNIT = 3, GENERIC = 3, SPECIFIC = 8, NO_RANK = 99 };

static const uint8_t RANKS_A[13] = {0, 1, 6, 0, 0, 2, 7, 4, 5, 9, 10, 11, 12};
static const uint8_t RANKS_B[13] = {0, 1, 3, 0, 0, NO_RANK, NO_RANK, 2, NO_RANK, 4, 5, NO_RANK, 6};

/* The first element at fault, or the count of elements where only the end is missing, or nowhere. */
static uint32_t fault_b(void) {
    uint32_t rank = 0, group = 0, waiting = 0;
    for (uint32_t e = 0; e < letter.elements; e++) {
        uint32_t kind = letter.rows[e][0];
        if (kind == UNIT) {
            if (!looks[e].place[0] || looks[e].owner[0] != group) return e;
            waiting--;
            continue;
        }
        if (RANKS_B[kind] == NO_RANK || RANKS_B[kind] < rank || waiting || hopeless(e)) return e;
        rank = RANKS_B[kind];
        group = e;
        waiting = looks[e].portions;
    }
    return waiting ? letter.elements : NOWHERE;
}

typedef struct {
    uint32_t rank, generic, specific, answered;
    int by_layout;
} state;

static int goes_to(state *now, uint32_t rank) {
    int ascends = rank >= now->rank;
    now->rank = rank;
    return ascends && (rank <= GENERIC || !now->generic) && (rank <= SPECIFIC || !now->specific);
}

static int takes_unit(state *now, uint32_t e) {
    uint32_t generic = 0, specific = 0, next = 0;
    for (int side = 0; side < 2; side++) {
        uint32_t owner = looks[e].owner[side], kind = letter.rows[owner][0];
        if (!looks[e].place[side] || owner > e) continue; /* only what stands before the unit is known of it */
        if (kind == 1 || kind == 5) {
            generic++;
            continue;
        }
        specific++;
        if (kind == (now->by_layout ? 2 : 6)) next = looks[owner].before + looks[e].place[side];
    }
    now->generic -= generic;
    now->specific -= specific;
    if (generic && !specific) return goes_to(now, GENERIC);
    return specific && !generic && goes_to(now, SPECIFIC) && (!next || next == ++now->answered);
}

static uint32_t fault_a(void) {
    state now = {0, 0, 0, 0, 0};
    for (uint32_t e = 0; e < letter.elements; e++) {
        uint32_t kind = letter.rows[e][0];
        if (kind == UNIT) {
            if (!takes_unit(&now, e)) return e;
            continue;
        }
        if (kind == 1 || kind == 5) now.generic += looks[e].portions;
        else now.specific += looks[e].portions;
        if (kind == 2) now.by_layout = 1;
        if (!goes_to(&now, RANKS_A[kind]) || hopeless(e) || looks[e].late) return e;
    }
    return now.generic || now.specific ? letter.elements : NOWHERE;
}

plain_ordered plain_order(int edition, const uint8_t *s, size_t n, int class) {
    judge(s, n, edition);
    plain_ordered r = {letter.number, letter.place};
    if (r.number) return r;
    look(s);
    uint32_t e = class == PLAIN_A ? fault_a() : fault_b();
    if (e == NOWHERE) return r;
    r.number = 26;
    r.place = e < letter.elements ? letter.rows[e][2] : (uint32_t)n;
    return r;
}

/* ---- the pages */

enum { NONE, ESSENTIAL, NON_ESSENTIAL, OUTSIDE, NOT_FIXED };

/* An integer of one to four octets with none to spare. */
static int integer(const uint8_t *v, uint32_t n, int32_t *x) {
    if (n < 1 || n > 4 || (n > 1 && v[0] == (v[1] & 0x80 ? 0xFF : 0x00))) return 0;
    uint32_t bits = v[0] & 0x80 ? UINT32_MAX : 0;
    for (uint32_t i = 0; i < n; i++) bits = bits << 8 | v[i];
    *x = (int32_t)bits;
    return 1;
}

static uint32_t judge_pair(int32_t x, int32_t y) {
    static const int32_t SHORT[4] = {9240, 9920, 10200, 14030}, LONG[4] = {12400, 14030, 13200, 19840};
    int32_t least = x < y ? x : y, most = x < y ? y : x;
    if (least < 1) return OUTSIDE;
    for (int i = 0; i < 4; i++)
        if (least <= SHORT[i] && most <= LONG[i]) return i ? NON_ESSENTIAL : ESSENTIAL;
    return OUTSIDE;
}

static uint32_t verdict(const uint8_t *s, const uint32_t *row) {
    item e = {0}, part, it, found = {0}, body = {0};
    int32_t pair[2];
    uint32_t count = 0;
    next_item(s, row[2], row[3], &e);
    EACH(part, e) if (part.code == 0x31) body = part;
    EACH(it, body) {
        if (it.code != 0xA4) continue;
        if (found.code) return NOT_FIXED;
        found = it;
    }
    if (!found.code) return NONE;
    EACH(it, found) {
        if (count == 2 || it.code != 0x80 || !integer(s + it.start, it.end - it.start, &pair[count])) return NOT_FIXED;
        count++;
    }
    return count == 2 ? judge_pair(pair[0], pair[1]) : NOT_FIXED;
}

plain_listed plain_pages(int edition, const uint8_t *s, size_t n, uint32_t *table, size_t numbers, uint32_t *list,
                         size_t list_numbers) {
    judge(s, n, edition);
    plain_listed r = {fill(s, table, numbers), letter.place, 0, 0};
    uint32_t count = 0;
    if (r.number) return r;
    r.elements = letter.elements;
    for (uint32_t e = 0; e < letter.elements; e++) count += letter.rows[e][1] == 2 && letter.rows[e][0] < 3;
    if (list_numbers / 2 < count) {
        r.number = 30;
        return r;
    }
    for (uint32_t e = 0; e < letter.elements; e++) {
        const uint32_t *row = letter.rows[e];
        if (row[1] != 2 || row[0] > 2) continue;
        list[2 * r.count] = e;
        list[2 * r.count++ + 1] = verdict(s, row);
    }
    return r;
}

/* ---- a letter of entries */

enum { ENTRY_WIDTH = 6, LONGEST_IDENTIFIER = 64 };

static uint32_t judge_entry(const uint8_t *buffer, size_t n, const uint32_t *entry, uint32_t number) {
    for (int i = 0; i < ENTRY_WIDTH; i += 2)
        if (entry[i] > entry[i + 1] || entry[i + 1] > n) return 27;
    uint32_t identifier = entry[1] - entry[0], portion = entry[3] - entry[2];
    if (!is_identifier(buffer + entry[0], identifier) || !is_portion(buffer + entry[2], portion)) return 14;
    if (identifier + 1 + portion > LONGEST_IDENTIFIER) return 14;
    if (!enter_object(buffer, entry[0], entry[1], number)) return 15;
    return 2 * number + 3 > MOST_ELEMENTS ? 9 : 0;
}

static uint32_t item_size(uint32_t inside) { return 1 + length_octets(inside) + inside; }

static uint8_t *put_head(uint8_t *out, uint8_t octet, uint32_t inside) {
    *out++ = octet;
    return put_length(out, inside);
}

static uint8_t *put(uint8_t *out, const uint8_t *buffer, uint32_t first, uint32_t past) {
    memcpy(out, buffer + first, past - first);
    return out + (past - first);
}

/* The sizes in an entry, from the inside to the outside. */
typedef struct {
    uint32_t named, block, joined, unit, text;
} sizes;

static sizes size_of(const uint32_t *entry) {
    uint32_t identifier = entry[1] - entry[0], portion = entry[3] - entry[2];
    sizes z;
    z.text = entry[5] - entry[4];
    z.named = item_size(identifier) + item_size(item_size(portion));
    z.block = 3 + item_size(z.named);
    z.joined = identifier + 1 + portion;
    z.unit = item_size(item_size(z.joined)) + item_size(z.text);
    return z;
}

static uint8_t *put_entry(uint8_t *out, const uint8_t *buffer, const uint32_t *entry) {
    sizes z = size_of(entry);
    uint32_t portion = entry[3] - entry[2];
    out = put_head(out, 0xA2, z.block);
    out = put_head(out, 0x02, 1);
    *out++ = 4;
    out = put_head(out, 0x31, z.named);
    out = put(put_head(out, 0x41, entry[1] - entry[0]), buffer, entry[0], entry[1]);
    out = put_head(out, 0xA1, item_size(portion));
    out = put(put_head(out, 0x12, portion), buffer, entry[2], entry[3]);
    out = put_head(out, 0xA3, z.unit);
    out = put_head(out, 0x31, item_size(z.joined));
    out = put(put_head(out, 0x40, z.joined), buffer, entry[0], entry[1]);
    *out++ = ' ';
    out = put(out, buffer, entry[2], entry[3]);
    return put(put_head(out, 0x04, z.text), buffer, entry[4], entry[5]);
}

plain_written plain_make(const uint8_t *buffer, size_t n, const uint32_t *entries, size_t entry_numbers, uint8_t *out, size_t room) {
    plain_written r = {0, 0, 0};
    size_t count = entry_numbers / ENTRY_WIDTH;
    uint64_t size = 2;
    clear_names(count < MOST_ELEMENTS ? (uint32_t)count : MOST_ELEMENTS);
    for (size_t i = 0; i < count; i++) {
        const uint32_t *entry = entries + ENTRY_WIDTH * i;
        r.number = judge_entry(buffer, n, entry, (uint32_t)i);
        r.place = r.number ? (uint32_t)i : 0;
        if (r.number) return r;
        sizes z = size_of(entry);
        size += item_size(z.block) + item_size(z.unit);
    }
    if (size > STREAM_LIMIT) r.number = 17;
    else if (room < size) r.number = 18;
    if (r.number) return r;
    out = put_head(out, 0xA0, 0);
    for (size_t i = 0; i < count; i++) out = put_entry(out, buffer, entries + ENTRY_WIDTH * i);
    r.length = (uint32_t)size;
    return r;
}
