/* A plain C reader: what a good C programmer would write of the rules in odif.h, by recursive descent and open-addressed
   hashing, with its scratch in one static place and nothing proved. It is a yardstick for speed and no authority on the
   rules; bench holds its answers to the library's, on the letters that it measures and on damaged copies of them. */
#include <string.h>
#include "plain.h"
#include "plain_items.h"

/* ---- the walk: 2 to 8 */

typedef struct {
    uint32_t number, place, headers;
} fault;

static uint32_t stop(fault *f, uint32_t number, uint32_t place) {
    f->number = number;
    f->place = place;
    return NOWHERE;
}

/* Past a run of items, or nowhere, with the fault. */
static uint32_t walk_run(const uint8_t *s, uint32_t at, uint32_t limit, int marked, int level, fault *f) {
    while (at < limit) {
        if (s[at] == 0) {
            if (!marked) return stop(f, 2, at);
            if (at + 1 == limit) return stop(f, 7, at);
            if (s[at + 1]) return stop(f, 2, at);
            return at + 2;
        }
        head h = read_head(s, at, limit, level);
        if (h.number) return stop(f, h.number, at);
        f->headers++;
        if (s[at] & 32) {
            at = walk_run(s, h.start, h.end, h.marked, level + 1, f);
            if (at == NOWHERE) return at;
        } else {
            at = h.end;
        }
    }
    return marked ? stop(f, 7, limit) : at;
}

/* Whether a run holds items with an octet, and with that octet's constructed twin, which hold such pieces, and no other. */
static int only_pieces(const uint8_t *s, const item *holder, uint32_t octet) {
    item piece;
    EACH(piece, *holder) {
        if (piece.code != octet && (piece.code != (octet | 32) || !only_pieces(s, &piece, octet))) return 0;
    }
    return 1;
}

/* ---- names */

int is_identifier(const uint8_t *v, uint32_t n) {
    int after_space = 1;
    if (n < 1 || n > 64) return 0;
    for (uint32_t i = 0; i < n; i++) {
        int space = v[i] == ' ';
        if (space ? after_space : v[i] < '0' || v[i] > '9') return 0;
        after_space = space;
    }
    return !after_space;
}

int is_portion(const uint8_t *v, uint32_t n) {
    if (n < 1 || n > 16) return 0;
    for (uint32_t i = 0; i < n; i++)
        if (v[i] < '0' || v[i] > '9') return 0;
    return 1;
}

/* One table for the four name spaces: the space is in the hash, and told again by the owner. Only as many slots are used,
   and cleared, as the letter's items ask for. */
enum { OBJECTS, STYLES, LAYOUT_UNITS, LOGICAL_UNITS };
enum { MOST_SLOTS = 16384, MOST_NAMES = 2 * MOST_ELEMENTS };

static struct {
    uint16_t slot[MOST_SLOTS];
    uint32_t mask, count;
    uint32_t first[MOST_NAMES], past[MOST_NAMES];
    uint16_t owner[MOST_NAMES]; /* the space in the high three bits, the row in the others */
} names;

plain_letter letter;

void clear_names(uint32_t most) {
    uint32_t slots = 64;
    while (slots < 2 * most && slots < MOST_SLOTS) slots *= 2;
    memset(names.slot, 0, slots * sizeof *names.slot);
    names.mask = slots - 1;
    names.count = 0;
}

static inline uint32_t seed(uint32_t space) { return 2166136261u + space * 7919u; }

static inline uint32_t mix(uint32_t hash, const uint8_t *v, uint32_t n) {
    for (uint32_t i = 0; i < n; i++) hash = (hash ^ v[i]) * 16777619u;
    return hash;
}

static inline uint32_t slot_of(uint32_t hash) { return (hash ^ hash >> 15) & names.mask; }

/* The slot of a name, which is free if the name does not stand there. */
static inline uint32_t seek(const uint8_t *s, uint32_t space, uint32_t first, uint32_t past) {
    uint32_t length = past - first, slot = slot_of(mix(seed(space), s + first, length));
    for (; names.slot[slot]; slot = (slot + 1) & names.mask) {
        uint32_t other = names.slot[slot] - 1u;
        if (names.owner[other] >> 13 == space && names.past[other] - names.first[other] == length
            && !memcmp(s + names.first[other], s + first, length))
            break;
    }
    return slot;
}

/* Enters a name, or says that it stands there. */
static int enter(const uint8_t *s, uint32_t space, uint32_t first, uint32_t past, uint32_t row) {
    uint32_t slot = seek(s, space, first, past);
    if (names.slot[slot]) return 0;
    names.first[names.count] = first;
    names.past[names.count] = past;
    names.owner[names.count] = (uint16_t)(space << 13 | row);
    names.slot[slot] = (uint16_t)++names.count;
    return 1;
}

int enter_object(const uint8_t *s, uint32_t first, uint32_t past, uint32_t row) { return enter(s, OBJECTS, first, past, row); }

/* ---- one element: 12 to 15 */

static uint32_t style(const uint8_t *s, const item *e, uint32_t number, uint32_t *row) {
    int identifiers = 0;
    item it;
    EACH(it, *e) {
        if (it.code == 0x65) return 12;
        if (it.code != 0x45) continue;
        identifiers++;
        row[4] = it.start;
        row[5] = it.end;
    }
    if (identifiers != 1) return 12;
    if (!is_identifier(s + row[4], row[5] - row[4])) return 14;
    return enter(s, STYLES, row[4], row[5], number) ? 0 : 15;
}

/* An item that may hold the content of a text unit. */
static int may_hold(const uint8_t *s, const item *it, int edition) {
    if (it->code == 0x04) return 1;
    return (it->code == 0x24 || (it->code == 0x30 && edition == PLAIN_1993)) && only_pieces(s, it, 0x04);
}

static uint32_t unit(const uint8_t *s, const item *parts, int count, uint32_t number, uint32_t *row, int edition) {
    int i = 0, layout = 0, logical = 0;
    item body = {0}, it;
    if (i < count && parts[i].code == 0x31) body = parts[i++];
    if (i == count) {
        if (edition == PLAIN_1988) return 12;
    } else {
        if (i != count - 1 || !may_hold(s, &parts[i], edition)) return 12;
        row[10] = parts[i].start;
        row[11] = parts[i].end;
        letter.holder[number] = (uint8_t)parts[i].code;
    }
    if (body.code) EACH(it, body) {
        if (it.code == 0x40) {
            layout++;
            row[4] = it.start;
            row[5] = it.end;
        } else if (it.code == 0x84) {
            logical++;
            row[6] = it.start;
            row[7] = it.end;
        } else if (it.code == 0x60 || it.code == 0xA4) {
            return 12;
        }
    }
    if (layout > 1 || logical > 1) return 12;
    if (layout && !is_identifier(s + row[4], row[5] - row[4])) return 14;
    if (logical && !is_identifier(s + row[6], row[7] - row[6])) return 14;
    if (layout && !enter(s, LAYOUT_UNITS, row[4], row[5], number)) return 15;
    if (logical && !enter(s, LOGICAL_UNITS, row[6], row[7], number)) return 15;
    return 0;
}

/* The portions of an element: 14 and 15. That they are 12 items was judged before. Their digits make one number each, so two
   are compared at once; and they mostly stand in ascending order, where one that is above all before it is no repetition. */
static uint32_t portions(const uint8_t *s, const item *holder) {
    uint32_t count = 0, repeated = 0;
    uint64_t packed[MOST_PORTIONS], most = 0;
    uint8_t length[MOST_PORTIONS], longest = 0;
    item it;
    EACH(it, *holder) {
        uint32_t n = it.end - it.start;
        uint64_t digits = 0;
        if (count == MOST_PORTIONS || !is_portion(s + it.start, n)) return 14;
        for (uint32_t i = 0; i < n; i++) digits = digits << 4 | (s[it.start + i] & 15);
        if (n > longest || (n == longest && digits > most)) {
            longest = (uint8_t)n;
            most = digits;
        } else {
            for (uint32_t i = 0; i < count; i++) repeated |= packed[i] == digits && length[i] == n;
        }
        packed[count] = digits;
        length[count++] = (uint8_t)n;
    }
    return repeated ? 15 : 0;
}

static uint32_t object(const uint8_t *s, const item *parts, int count, uint32_t number, uint32_t *row) {
    int i = 0, identifiers = 0, holders = 0;
    item type = {0}, body = {0}, holder = {0}, it;
    if (i < count && parts[i].code == 0x02) type = parts[i++];
    if (i < count && parts[i].code == 0x31) body = parts[i++];
    if (i != count) return 12;
    if (body.code) EACH(it, body) {
        if (it.code == 0x41) {
            identifiers++;
            row[4] = it.start;
            row[5] = it.end;
        } else if (it.code == 0xA1) {
            holders++;
            holder = it;
            row[8] = it.start;
            row[9] = it.end;
        } else if (it.code == 0x61 || it.code == 0x81) {
            return 12;
        }
    }
    if (identifiers > 1 || holders > 1) return 12;
    if ((row[0] == 1 || row[0] == 5) && (!type.code || !body.code || !identifiers)) return 12;
    if (holders) EACH(it, holder) if (it.code != 0x12) return 12;
    if (type.code) {
        if (type.end - type.start != 1 || s[type.start] > (row[0] < 3 ? 4 : 2)) return 13;
        row[1] = s[type.start];
    }
    if (identifiers && !is_identifier(s + row[4], row[5] - row[4])) return 14;
    uint32_t fault_of_portions = holders ? portions(s, &holder) : 0;
    if (fault_of_portions) return fault_of_portions;
    if (identifiers && !enter(s, OBJECTS, row[4], row[5], number)) return 15;
    return 0;
}

/* A protected part: 47, then a bit string of a sealed profile, an octet string of the others. */
static uint32_t protected_part(const uint8_t *s, const item *parts, int count, uint32_t *row) {
    uint32_t octet = row[0] == 9 ? 0x03 : 0x04;
    if (count != 2 || parts[0].code != 0x47) return 12;
    if (parts[1].code != octet && (parts[1].code != (octet | 32) || !only_pieces(s, &parts[1], octet))) return 12;
    if (row[0] > 9) {
        row[10] = parts[1].start;
        row[11] = parts[1].end;
    }
    return 0;
}

static uint32_t element(const uint8_t *s, const item *e, uint32_t number, uint32_t *row, int edition) {
    item parts[2], it;
    int count = 0;
    row[0] = e->code & 31;
    row[1] = 255;
    row[2] = e->first;
    row[3] = e->past;
    memset(row + 4, 0, (ROW_WIDTH - 4) * sizeof *row);
    letter.holder[number] = 0;
    if (row[0] == 0) return 0;
    if (row[0] == 7 || row[0] == 8) return style(s, e, number, row);
    EACH(it, *e) {
        if (count == 2) return 12;
        parts[count++] = it;
    }
    if (row[0] == 3) return unit(s, parts, count, number, row, edition);
    return row[0] < 7 ? object(s, parts, count, number, row) : protected_part(s, parts, count, row);
}

/* ---- a stream: 1, 9 to 11 */

void judge(const uint8_t *s, size_t n, int edition) {
    fault f = {0, 0, 0};
    item e;
    uint32_t count = 0, number, last = edition == PLAIN_1993 ? 0xAC : 0xA8;
    letter.number = letter.place = letter.headers = letter.elements = 0;
    if (n > STREAM_LIMIT) {
        letter.number = 1;
        return;
    }
    uint32_t past = walk_run(s, 0, (uint32_t)n, 0, 1, &f);
    letter.headers = f.headers;
    if (past == NOWHERE || n == 0) {
        letter.number = n == 0 ? 11 : f.number;
        letter.place = f.place;
        return;
    }
    clear_names(f.headers);
    for (uint32_t at = 0; next_item(s, at, (uint32_t)n, &e); at = e.past, count++) {
        if (count == MOST_ELEMENTS) number = 9;
        else if (e.code < 0xA0 || e.code > last || e.code == 0xA4) number = 10;
        else if ((count == 0) != (e.code == 0xA0)) number = 11;
        else number = element(s, &e, count, letter.rows[count], edition);
        if (number) {
            letter.number = number;
            letter.place = e.first;
            return;
        }
    }
    letter.elements = count;
}

static inline int is_side(uint32_t kind, int side) {
    return side == PLAIN_LAYOUT ? kind == 1 || kind == 2 : kind == 5 || kind == 6;
}

/* The row of an element's parent: who carries its identifier without the last group, on the same side. */
static uint32_t parent_of(const uint8_t *s, const uint32_t *row) {
    int side = is_side(row[0], PLAIN_LOGICAL) ? PLAIN_LOGICAL : PLAIN_LAYOUT;
    uint32_t past = row[5];
    if (!is_side(row[0], side)) return NO_PARENT;
    while (past > row[4] && s[past - 1] != ' ') past--;
    if (past == row[4]) return NO_PARENT;
    uint32_t slot = seek(s, OBJECTS, row[4], past - 1);
    if (!names.slot[slot]) return NO_PARENT;
    uint32_t owner = names.owner[names.slot[slot] - 1u] & 8191;
    return is_side(letter.rows[owner][0], side) ? owner : NO_PARENT;
}

uint32_t fill(const uint8_t *s, uint32_t *table, size_t numbers) {
    if (letter.number) return letter.number;
    if (numbers / ROW_WIDTH < letter.elements) return 16;
    for (uint32_t i = 0; i < letter.elements; i++) letter.rows[i][12] = parent_of(s, letter.rows[i]);
    memcpy(table, letter.rows, sizeof *letter.rows * letter.elements);
    return 0;
}

plain_checked plain_check(int edition, const uint8_t *s, size_t n, uint32_t *table, size_t numbers) {
    judge(s, n, edition);
    plain_checked r = {fill(s, table, numbers), letter.place, letter.headers, 0};
    if (!r.number) r.elements = letter.elements;
    return r;
}

/* ---- the reading list */

/* The row of the unit whose identifier is the element's, a space and the portion, or nowhere. */
static uint32_t look_up(const uint8_t *s, uint32_t space, uint32_t hash, const uint32_t *row, const item *portion) {
    uint32_t front = row[5] - row[4], back = portion->end - portion->start;
    for (uint32_t slot = slot_of(hash); names.slot[slot]; slot = (slot + 1) & names.mask) {
        uint32_t found = names.slot[slot] - 1u;
        const uint8_t *name = s + names.first[found];
        if (names.owner[found] >> 13 == space && names.past[found] - names.first[found] == front + 1 + back
            && !memcmp(name, s + row[4], front) && name[front] == ' ' && !memcmp(name + front + 1, s + portion->start, back))
            return names.owner[found] & 8191;
    }
    return NOWHERE;
}

uint32_t find_matches(const uint8_t *s, int side) {
    uint32_t count = 0, space = side == PLAIN_LAYOUT ? LAYOUT_UNITS : LOGICAL_UNITS;
    for (uint32_t e = 0; e < letter.elements; e++) {
        const uint32_t *row = letter.rows[e];
        if (!is_side(row[0], side) || !row[5] || !row[9]) continue;
        uint32_t front = mix(mix(seed(space), s + row[4], row[5] - row[4]), (const uint8_t *)" ", 1), place = 0;
        item holder = {0xA1, 0, row[8], row[9], 0}, portion;
        EACH(portion, holder) {
            uint32_t hash = mix(front, s + portion.start, portion.end - portion.start);
            uint32_t found = look_up(s, space, hash, row, &portion);
            if (found != NOWHERE) {
                uint32_t *match = letter.matches[count++];
                match[0] = e;
                match[1] = place;
                match[2] = found;
            }
            place++;
        }
    }
    return count;
}

plain_listed plain_list(int edition, const uint8_t *s, size_t n, int side, uint32_t *table, size_t numbers, uint32_t *list,
                        size_t list_numbers) {
    judge(s, n, edition);
    plain_listed r = {fill(s, table, numbers), letter.place, 0, 0};
    if (r.number) return r;
    r.elements = letter.elements;
    uint32_t count = find_matches(s, side);
    if (list_numbers / 3 < count) {
        r.number = 19;
        return r;
    }
    memcpy(list, letter.matches, count * sizeof *letter.matches);
    r.count = count;
    return r;
}

/* ---- the normal form */

static uint32_t sizes[STREAM_LIMIT / 2], constructed; /* of each constructed item, in stream order */

static inline uint32_t field_octets(uint32_t code) { return (code & 31) != 31 ? 1 : code & 0x8000 ? 3 : 2; }

/* Measures a run, and says the place past it. */
static uint32_t run_size(const uint8_t *s, uint32_t at, uint32_t limit, int marked, uint32_t *past) {
    uint32_t size = 0;
    while (at < limit) {
        if (marked && s[at] == 0) {
            at += 2;
            break;
        }
        head h = passed_head(s, at, limit);
        uint32_t inside = h.end - h.start;
        if (h.code & 32) {
            uint32_t own = constructed++;
            sizes[own] = inside = run_size(s, h.start, h.end, h.marked, &at);
        } else {
            at = h.end;
        }
        size += field_octets(h.code) + length_octets(inside) + inside;
    }
    *past = at;
    return size;
}

/* Writes a run that was measured. */
static uint8_t *write_run(const uint8_t *s, uint32_t at, uint32_t limit, int marked, uint8_t *out, uint32_t *past) {
    while (at < limit) {
        if (marked && s[at] == 0) {
            at += 2;
            break;
        }
        head h = passed_head(s, at, limit);
        uint32_t inside = h.code & 32 ? sizes[constructed++] : h.end - h.start;
        for (uint32_t code = h.code, i = field_octets(code); i--; code >>= 8) *out++ = (uint8_t)code;
        out = put_length(out, inside);
        if (h.code & 32) {
            out = write_run(s, h.start, h.end, h.marked, out, &at);
        } else {
            memcpy(out, s + h.start, inside);
            out += inside;
            at = h.end;
        }
    }
    *past = at;
    return out;
}

plain_written plain_normal(int edition, const uint8_t *s, size_t n, uint8_t *out, size_t room) {
    judge(s, n, edition);
    plain_written r = {letter.number, letter.place, 0};
    if (r.number) return r;
    constructed = 0;
    uint32_t past, size = run_size(s, 0, (uint32_t)n, 0, &past);
    if (size > STREAM_LIMIT) r.number = 17;
    else if (room < size) r.number = 18;
    if (r.number) return r;
    constructed = 0;
    write_run(s, 0, (uint32_t)n, 0, out, &past);
    r.length = size;
    return r;
}

/* ---- content */

plain_found plain_content(int edition, const uint8_t *s, size_t n, size_t number) {
    judge(s, n, edition);
    plain_found r = {letter.number, letter.place, 0, 0};
    if (r.number) return r;
    if (number >= letter.elements || letter.rows[number][0] != 3) r.number = 20;
    else if (letter.holder[number] & 32) r.number = 21;
    if (r.number) return r;
    r.first = letter.rows[number][10];
    r.past = letter.rows[number][11];
    return r;
}
