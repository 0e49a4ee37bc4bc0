/* Writes a letter that was made to be slow, or one of the same make and length that was not:
     hostile MAKE 1 COUNT > LETTER      hostile MAKE 0 COUNT > LETTER
   COUNT elements after the profile, names in falling order, which is the worst for an array in order. With 1,
     names     are objects whose identifiers, of 64 octets, all fall into one bucket of the index
     both      are text units, with both identifiers chosen so
     fronts    are objects; nine identifiers fall into one bucket, and the others share their first 60 octets
     short     are objects; nine identifiers fall into one bucket, and the others are as short as they can be
     portions  are objects with 64 portions, all of one tag
   The names are found by trying numbers; `hash_over`, `bucket_of` and `tag_of` follow crates/names and crates/portions. */
#include <stdint.h>
#include <stdio.h>
#include <stdlib.h>
#include <string.h>

enum { BUCKETS = 8192, LENGTH = 64, MOST = 4095, CHAIN = 9, PORTIONS = 64, PORTION = 16, TAGS = 64 };

/* The hash after more octets of a name, of 32 bits and at first 0, and the bucket of a hash. */
static uint32_t hash_over(uint32_t hash, const char *name, int from, int to) {
    for (int i = from; i < to; i++) {
        uint64_t sum = (uint64_t)hash + (uint8_t)name[i];
        hash = (uint32_t)((sum << 6) + sum + (sum >> 9));
    }
    return hash;
}

static uint32_t bucket_of(uint32_t hash) { return hash % BUCKETS; }

/* The tag of a portion: its digits as a number's, modulo 64. */
static uint32_t tag_of(const char *digits, int length) {
    uint32_t tag = 16;
    for (int i = 0; i < length; i++) tag = (10 * tag + (uint8_t)digits[i]) % TAGS;
    return tag;
}

/* ---- the names */

static char names[MOST][LENGTH];
static int lengths[MOST];

/* Puts a number's last digits into a name. */
static void put_digits(char *name, int from, int to, uint32_t number) {
    for (int i = to - 1; i >= from; i--, number /= 10) name[i] = (char)('0' + number % 10);
}

/* Names `from` to `to`, of one length: sevens, and then so many digits, rising, each number tried; chosen ones fall into bucket 0. */
static void fill(int from, int to, int length, int digits, int chosen) {
    uint32_t number = 0, front = 0;
    for (int i = from; i < to; i++) {
        memset(names[i], '7', (size_t)length);
        if (i == from) front = hash_over(0, names[i], 0, length - digits);
        do put_digits(names[i], length - digits, length, number++);
        while (chosen && bucket_of(hash_over(front, names[i], length - digits, length)) != 0);
        lengths[i] = length;
    }
}

/* ---- the elements */

static int has_length(int length) { return length < 128 ? 2 : length < 256 ? 3 : 4; }

static void put_header(int octet, int length) {
    putchar(octet);
    if (length < 128) putchar(length);
    else if (length < 256) putchar(0x81), putchar(length);
    else putchar(0x82), putchar(length >> 8), putchar(length & 255);
}

static void put_name(int octet, int i) {
    put_header(octet, lengths[i]);
    fwrite(names[i], 1, (size_t)lengths[i], stdout);
}

static void put_object(int i) {
    put_header(0xA6, lengths[i] + 4);
    put_header(0x31, lengths[i] + 2);
    put_name(0x41, i);
}

static void put_unit(int i) {
    put_header(0xA3, 2 * lengths[i] + 9);
    put_header(0x31, 2 * lengths[i] + 4);
    put_name(0x40, i);
    put_name(0x84, i);
    fwrite("\x04\x00", 1, 2, stdout);
}

/* An object with portions as long as they can be: of one tag, or of as many tags as there are portions. */
static void put_portions(int i, int chosen) {
    int inside = PORTIONS * (PORTION + 2), body = lengths[i] + 2 + has_length(inside) + inside;
    put_header(0xA6, has_length(body) + body);
    put_header(0x31, body);
    put_name(0x41, i);
    put_header(0xA1, inside);
    uint32_t number = 0;
    for (uint32_t k = 0; k < PORTIONS; k++) {
        char portion[PORTION];
        do put_digits(portion, 0, PORTION, number++);
        while (tag_of(portion, PORTION) != (chosen ? 0 : k));
        put_header(0x12, PORTION);
        fwrite(portion, 1, PORTION, stdout);
    }
}

int main(int count, char **words) {
    int chosen = count > 2 ? atoi(words[2]) : 0, wanted = count > 3 ? atoi(words[3]) : 0;
    const char *make = wanted > CHAIN && wanted <= MOST ? words[1] : "";
    if (!strcmp(make, "names") || !strcmp(make, "both")) fill(0, wanted, LENGTH, 9, chosen);
    else if (!strcmp(make, "fronts")) fill(0, wanted, LENGTH, 4, 0), fill(wanted - CHAIN, wanted, LENGTH, 6, chosen);
    else if (!strcmp(make, "short")) fill(0, wanted, 4, 4, 0), fill(wanted - CHAIN, wanted, 6, 6, chosen);
    else if (!strcmp(make, "portions")) fill(0, wanted, 4, 4, 0);
    else return fputs("usage: hostile names|both|fronts|short|portions 0|1 COUNT\n", stderr), 2;
    fwrite("\xA0\x00", 1, 2, stdout);
    for (int i = wanted - 1; i >= 0; i--) {
        if (!strcmp(make, "both")) put_unit(i);
        else if (!strcmp(make, "portions")) put_portions(i, chosen);
        else put_object(i);
    }
    return 0;
}
