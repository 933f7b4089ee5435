/* A random walk over the calls on settings bundles: lists good and bad are written by both writers, and bundles that were written, forged (one thing changed and
 * the tag made good again), damaged or of a later edition are asked by both readers. Each call is held to a model written from request 2026-11: the number given back,
 * what is told, every byte of the output and every byte round it. The same calls on each run. Exit status 1 if anything differs. */
#include <stdio.h>
#include <string.h>

/* Of the model only the cipher and CMAC are wanted here. */
#pragma GCC diagnostic ignored "-Wunused-function"
#include "model.h"

#define WALKS 3000
#define ROOM 70000 /* bytes of a buffer */
#define ROUND 64   /* bytes round the output */

_Static_assert(GIFT_BAD_BUNDLE_LENGTH == 20 && GIFT_BAD_TAG == 21 && GIFT_MALFORMED == 22 && GIFT_MUST_KNOW == 23, "20 to 23");
_Static_assert(GIFT_BAD_LIST == 24 && GIFT_SHORT_OUTPUT == 25, "24, 25");
_Static_assert(GIFT_REFUSED == 0 && GIFT_ABSENT == 1 && GIFT_UNKNOWN == 2 && GIFT_VALUE == 3, "states");

/* ---- numbers at random: splitmix64 ---- */

static uint64_t seed = 2026;

static uint64_t next(void)
{
    uint64_t z = seed += 0x9e3779b97f4a7c15;
    z = (z ^ z >> 30) * 0xbf58476d1ce4e5b9;
    z = (z ^ z >> 27) * 0x94d049bb133111eb;
    return z ^ z >> 31;
}

static uint32_t below(uint32_t n)
{
    return (uint32_t)(next() % n);
}

/* ---- counts ---- */

static unsigned read_given[3][26], write_given[3][26], values, unknowns, absences, calls, differences, both_values, both_absent;

static int differs(const char *what)
{
    if (differences++ < 20) {
        printf("%s differs\n", what);
        return 1;
    }
    return 0;
}

/* ---- the model: the request's sentences ---- */

static uint32_t big(const uint8_t *b, unsigned n)
{
    uint32_t x = 0;
    while (n--)
        x = x << 8 | *b++;
    return x;
}

static void put_big(uint8_t *b, uint32_t x, unsigned n)
{
    while (n--) {
        b[n] = (uint8_t)x;
        x >>= 8;
    }
}

/* Edition 1 has kinds 0 and 1; edition 2 adds kind 2. */
static int has_kind(uint32_t edition, uint32_t kind)
{
    return kind <= edition && kind <= 2 && edition >= 1;
}

static int good_value(uint32_t kind, const uint8_t *body, size_t len)
{
    if (kind == 0)
        return len == 1 && body[0] <= 1;
    return kind == 1 ? len == 8 : kind == 2 && len <= 255;
}

static uint32_t read_number(uint32_t reader, const uint8_t *key, size_t key_len, const uint8_t *b, size_t len)
{
    if (key_len != 16)
        return 1;
    if (len < 24 || len > 65536 || big(b + 4, 4) != len)
        return 20;
    uint8_t tag[16];
    model_mac(key, b, len - 16, tag);
    if (memcmp(tag, b + len - 16, 16) != 0)
        return 21;
    uint32_t edition = big(b, 2), n = big(b + 2, 2), unknown_must = 0;
    if (edition == 0 || n > 256 || 8 + 12 * (size_t)n > len - 16)
        return 22;
    uint64_t place = 8 + 12 * n, least = 0;
    for (uint32_t i = 0; i < n; i++) {
        const uint8_t *e = b + 8 + 12 * i;
        uint32_t id = big(e, 4), offset = big(e + 4, 4), length = big(e + 8, 2), kind = e[10], must = e[11];
        if (id < least || offset != place || must > 1 || place + length > len - 16)
            return 22;
        if (edition <= reader && !has_kind(edition, kind))
            return 22;
        if (has_kind(reader, kind) && !good_value(kind, b + offset, length))
            return 22;
        unknown_must |= must && !has_kind(reader, kind);
        place += length;
        least = (uint64_t)id + 1;
    }
    if (place != len - 16)
        return 22;
    return unknown_must ? 23 : 0;
}

static gift_told told_of(uint32_t reader, const uint8_t *e)
{
    gift_told t = {GIFT_UNKNOWN, big(e, 4), 0, 0, 0};
    if (has_kind(reader, e[10])) {
        t.state = GIFT_VALUE;
        t.kind = e[10];
        t.at = big(e + 4, 4);
        t.length = big(e + 8, 2);
    }
    return t;
}

static gift_told asked_of(uint32_t reader, uint32_t number, const uint8_t *b, uint32_t id)
{
    gift_told t = {number ? GIFT_REFUSED : GIFT_ABSENT, 0, 0, 0, 0};
    for (uint32_t i = 0; number == 0 && i < big(b + 2, 2); i++)
        if (big(b + 8 + 12 * i, 4) == id)
            return told_of(reader, b + 8 + 12 * i);
    return t;
}

static uint32_t write_number(uint32_t edition, size_t key_len, const uint32_t *rows, size_t rows_len, const uint8_t *pool, size_t pool_len, size_t out_len,
                             uint32_t *total)
{
    *total = 0;
    if (key_len != 16)
        return 1;
    if (rows_len % 4 != 0 || rows_len / 4 > 256)
        return 24;
    uint64_t at = 0, least = 0;
    for (size_t i = 0; i < rows_len; i += 4) {
        if (rows[i] < least || !has_kind(edition, rows[i + 1]) || rows[i + 2] > 1 || at + rows[i + 3] > pool_len || !good_value(rows[i + 1], pool + at, rows[i + 3]))
            return 24;
        at += rows[i + 3];
        least = (uint64_t)rows[i] + 1;
    }
    uint64_t all = 24 + 3 * rows_len + pool_len;
    if (at != pool_len || all > 65536)
        return 24;
    if (out_len < all)
        return 25;
    *total = (uint32_t)all;
    return 0;
}

/* The bytes of a list, whatever it is. */
static size_t made(uint8_t *b, const uint8_t *key, uint32_t edition, const uint32_t *rows, size_t rows_len, const uint8_t *pool, size_t pool_len)
{
    size_t n = rows_len / 4, at = 8 + 12 * n;
    put_big(b, edition, 2);
    put_big(b + 2, (uint32_t)n, 2);
    put_big(b + 4, (uint32_t)(at + pool_len + 16), 4);
    memcpy(b + at, pool, pool_len);
    for (size_t i = 0; i < n; i++) {
        uint8_t *e = b + 8 + 12 * i;
        put_big(e, rows[4 * i], 4);
        put_big(e + 4, (uint32_t)at, 4);
        put_big(e + 8, rows[4 * i + 3], 2);
        e[10] = (uint8_t)rows[4 * i + 1];
        e[11] = (uint8_t)rows[4 * i + 2];
        at += rows[4 * i + 3];
    }
    model_mac(key, b, at, b + at);
    return at + 16;
}

/* ---- lists ---- */

static uint8_t key[32], pool[ROOM];
static uint32_t rows[4 * 300];
static size_t rows_len, pool_len;

/* A list of an edition; past edition 2 some kinds are strange. */
static void some_list(uint32_t edition, uint32_t count)
{
    uint32_t id = below(3);
    rows_len = pool_len = 0;
    for (uint32_t i = 0; i < 16; i++)
        key[i] = (uint8_t)next();
    for (uint32_t i = 0; i < count; i++) {
        uint32_t kind = edition > 2 && below(3) == 0 ? 3 + below(200) : below(edition > 1 ? 3 : 2);
        uint32_t len = kind == 0 ? 1 : kind == 1 ? 8 : below(8) ? below(20) : below(256);
        for (uint32_t j = 0; j < len; j++)
            pool[pool_len + j] = kind == 0 ? (uint8_t)below(2) : (uint8_t)next();
        rows[rows_len++] = id;
        rows[rows_len++] = kind;
        rows[rows_len++] = below(2);
        rows[rows_len++] = len;
        pool_len += len;
        id += 1 + (below(6) ? below(3) : below(1u << 20));
    }
}

/* Something wrong in it. */
static void spoil(void)
{
    static const uint32_t some[] = {0, 1, 2, 3, 8, 255, 256, 0xffffffff};
    uint32_t how = below(6);
    if (rows_len && how < 4)
        rows[below((uint32_t)rows_len)] = some[below(8)];
    else if (rows_len && how == 4)
        rows_len -= 1 + below(2);
    else
        pool_len += pool_len && below(2) ? (size_t)-1 : 1;
}

/* ---- the calls ---- */

static uint8_t lent[ROUND + ROOM + ROUND], wanted[ROUND + ROOM + ROUND];

static void write_both(size_t key_len, size_t out_len)
{
    for (uint32_t edition = 1; edition <= 2; edition++) {
        uint32_t total, number = write_number(edition, key_len, rows, rows_len, pool, pool_len, out_len, &total);
        for (size_t i = 0; i < ROUND + out_len + ROUND; i++)
            lent[i] = (uint8_t)(i * 7 + total);
        memcpy(wanted, lent, ROUND + out_len + ROUND);
        if (number == 0)
            made(wanted + ROUND, key, edition, rows, rows_len, pool, pool_len);
        gift_written w = (edition == 1 ? gift_bundle_write_1 : gift_bundle_write_2)(key, key_len, rows, rows_len, pool, pool_len, lent + ROUND, out_len);
        calls++;
        write_given[edition][number]++;
        if ((w.code != number || w.total != total || memcmp(lent, wanted, ROUND + out_len + ROUND) != 0) && differs("a write"))
            printf("  edition %u, number %u and not %u\n", edition, w.code, number);
    }
}

static int same_told(gift_told a, gift_told b)
{
    return a.state == b.state && a.id == b.id && a.kind == b.kind && a.at == b.at && a.length == b.length;
}

/* Both readers, on some ids and all entries; and whether they ever show two values. */
static void ask_both(const uint8_t *b, size_t len, size_t key_len)
{
    uint32_t number[3];
    gift_bundle seen[3];
    for (uint32_t reader = 1; reader <= 2; reader++) {
        number[reader] = read_number(reader, key, key_len, b, len);
        seen[reader] = (reader == 1 ? gift_bundle_open_1 : gift_bundle_open_2)(key, key_len, b, len);
        uint32_t count = number[reader] ? 0 : big(b + 2, 2), size = number[reader] ? 0 : (uint32_t)len;
        calls++;
        read_given[reader][number[reader]]++;
        if (seen[reader].code != number[reader] || seen[reader].reader != reader || seen[reader].count != count || seen[reader].size != size)
            if (differs("an opening"))
                printf("  reader %u, number %u and not %u\n", reader, seen[reader].code, number[reader]);
        for (uint32_t i = 0; i < (count > 8 ? 8 : count + 1); i++) {
            gift_told none = {number[reader] ? GIFT_REFUSED : GIFT_ABSENT, 0, 0, 0, 0};
            calls++;
            if (!same_told(gift_bundle_entry(seen[reader], b, len, i), i < count ? told_of(reader, b + 8 + 12 * i) : none))
                differs("an entry");
        }
        calls++;
        if (gift_bundle_look(seen[reader], b, len + 1, 0).state != GIFT_REFUSED)
            differs("a look-up in other bytes");
    }
    for (unsigned k = 0; k < 4; k++) {
        uint32_t id = rows_len && below(3) ? rows[4 * below((uint32_t)(rows_len / 4 ? rows_len / 4 : 1))] : below(12);
        gift_told told[3];
        for (uint32_t reader = 1; reader <= 2; reader++) {
            gift_told t = asked_of(reader, number[reader], b, id);
            gift_asked a = (reader == 1 ? gift_bundle_ask_1 : gift_bundle_ask_2)(key, key_len, b, len, id);
            calls += 2;
            told[reader] = a.told;
            if (a.code != number[reader] || !same_told(a.told, t))
                differs("an answer");
            if (!same_told(gift_bundle_look(seen[reader], b, len, id), t))
                differs("a look-up");
            values += t.state == GIFT_VALUE;
            unknowns += t.state == GIFT_UNKNOWN;
            absences += t.state == GIFT_ABSENT;
        }
        if (told[1].state == GIFT_VALUE && told[2].state == GIFT_VALUE) {
            both_values++;
            if (!same_told(told[1], told[2]))
                differs("two nodes");
        }
        both_absent += told[1].state == GIFT_ABSENT && told[2].state == GIFT_ABSENT;
    }
}

static uint8_t bundle[ROOM], changed[ROOM];

static void walk(void)
{
    static const uint32_t editions[] = {1, 1, 2, 2, 2, 3, 3, 65535, 0};
    uint32_t edition = editions[below(9)];
    some_list(edition, below(6));
    size_t len = made(bundle, key, edition, rows, rows_len, pool, pool_len);
    ask_both(bundle, len, below(20) ? 16 : below(2) ? 15 : 17);
    /* damaged: the tag is wrong, or the length */
    memcpy(changed, bundle, len);
    changed[below((uint32_t)len)] ^= (uint8_t)(1u << below(8));
    ask_both(changed, below(4) ? len : below((uint32_t)len), 16);
    /* forged: one thing changed, and the tag made good */
    memcpy(changed, bundle, len);
    size_t at = below((uint32_t)(len - 16));
    changed[at] = below(2) ? (uint8_t)(changed[at] + 1 - 2 * below(2)) : (uint8_t)below(4);
    model_mac(key, changed, len - 16, changed + len - 16);
    ask_both(changed, len, 16);
    /* written */
    size_t out = 24 + 3 * rows_len + pool_len;
    if (below(3) == 0)
        spoil();
    write_both(below(20) ? 16 : 15, below(4) ? out + below(30) : below((uint32_t)out));
}

/* The largest: 256 and 257 settings, edition 1's largest bundle, 65,536 bytes and one more. */
static void large(void)
{
    for (uint32_t count = 255; count <= 257; count++)
        for (uint32_t edition = 1; edition <= 2; edition++) {
            some_list(1, count);
            pool_len = 0;
            for (uint32_t i = 0; i < count; i++) {
                rows[4 * i + 1] = 1;
                rows[4 * i + 3] = 8;
                pool_len += 8;
            }
            write_both(16, 6000);
            ask_both(bundle, made(bundle, key, edition, rows, rows_len, pool, pool_len), 16);
        }
    for (uint32_t more = 0; more <= 1; more++) {
        some_list(1, 256);
        pool_len = 0;
        for (uint32_t i = 0; i < 256; i++) {
            rows[4 * i + 1] = 2;
            rows[4 * i + 3] = i < 232 + more ? 244 : 243; /* 62,440 bytes of text, and one more */
            pool_len += rows[4 * i + 3];
        }
        write_both(16, 65535);
        write_both(16, 65540);
        ask_both(bundle, made(bundle, key, 2, rows, rows_len, pool, pool_len), 16);
    }
}

static void counts(const char *what, unsigned given[3][26], unsigned from, unsigned to)
{
    for (uint32_t edition = 1; edition <= 2; edition++) {
        printf("%s of edition %u: 0 given %u times, 1 %u", what, edition, given[edition][0], given[edition][1]);
        for (unsigned number = from; number <= to; number++)
            printf(", %u %u", number, given[edition][number]);
        printf("\n");
    }
}

/* ---- where two bundles differ ---- */

static uint32_t differ_given[26], differing, alike_ids;
static uint32_t lent_rows[ROUND + 9 * GIFT_DIFFERENCES + ROUND], wanted_rows[ROUND + 9 * GIFT_DIFFERENCES + ROUND];

static int same_answer(gift_told a, const uint8_t *b, gift_told u, const uint8_t *c)
{
    if (a.state != u.state || a.state != GIFT_VALUE)
        return a.state == u.state;
    return a.kind == u.kind && a.length == u.length && memcmp(b + a.at, c + u.at, a.length) == 0;
}

/* By the model: every id of either table, rising. The rows' numbers, and how many ids differ. */
static uint32_t model_differ(const uint8_t *b, const uint8_t *c, uint32_t *out)
{
    uint32_t ids[512], n = 0, count = 0;
    for (uint32_t i = 0; i < big(b + 2, 2); i++)
        ids[n++] = big(b + 8 + 12 * i, 4);
    for (uint32_t i = 0; i < big(c + 2, 2); i++)
        ids[n++] = big(c + 8 + 12 * i, 4);
    for (uint32_t i = 1; i < n; i++)
        for (uint32_t j = i; j > 0 && ids[j - 1] > ids[j]; j--) {
            uint32_t id = ids[j];
            ids[j] = ids[j - 1];
            ids[j - 1] = id;
        }
    for (uint32_t i = 0; i < n; i++) {
        if (i > 0 && ids[i] == ids[i - 1])
            continue;
        gift_told a = asked_of(2, 0, b, ids[i]), u = asked_of(2, 0, c, ids[i]);
        if (same_answer(a, b, u, c)) {
            alike_ids++;
            continue;
        }
        uint32_t row[9] = {ids[i], a.state, a.kind, a.at, a.length, u.state, u.kind, u.at, u.length};
        memcpy(out + 9 * count++, row, sizeof row);
    }
    return count;
}

static void differ_both(const uint8_t *b, size_t b_len, const uint8_t *c, size_t c_len, size_t key_len)
{
    uint32_t first = read_number(2, key, key_len, b, b_len), second = read_number(2, key, key_len, c, c_len);
    uint32_t found[9 * GIFT_DIFFERENCES], count = first || second ? 0 : model_differ(b, c, found);
    size_t rooms[] = {9 * GIFT_DIFFERENCES, 9 * count, count ? 9 * count - 1 : 0, 9 * count + below(9)};
    differing += count;
    for (unsigned i = 0; i < 4; i++) {
        size_t room = rooms[i] > 9 * GIFT_DIFFERENCES ? 9 * GIFT_DIFFERENCES : rooms[i];
        uint32_t code = first ? first : second ? second : 9 * count > room ? GIFT_SHORT_OUTPUT : 0;
        for (size_t j = 0; j < ROUND + room + ROUND; j++)
            lent_rows[j] = wanted_rows[j] = (uint32_t)(j * 2654435761u + count);
        if (code == 0)
            memcpy(wanted_rows + ROUND, found, 36 * count);
        gift_compared r = gift_bundle_differ(key, key_len, b, b_len, c, c_len, lent_rows + ROUND, room);
        calls++;
        differ_given[code]++;
        if (r.code != code || r.first != first || r.second != second || r.count != count || memcmp(lent_rows, wanted_rows, 4 * (ROUND + room + ROUND)) != 0)
            if (differs("a comparison"))
                printf("  number %u and not %u, %u and not %u ids\n", r.code, code, r.count, count);
    }
}

static uint8_t other[ROOM];

/* Lists with ids in common, of any editions; the same list with one byte changed, itself, and damaged. */
static void compare(void)
{
    static const uint32_t editions[] = {1, 2, 2, 2, 3, 3, 65535};
    uint32_t edition = editions[below(7)];
    some_list(edition, below(6));
    size_t len = made(bundle, key, edition, rows, rows_len, pool, pool_len);
    edition = editions[below(7)];
    some_list(edition, below(6));
    size_t size = made(other, key, edition, rows, rows_len, pool, pool_len);
    model_mac(key, bundle, len - 16, bundle + len - 16); /* the second list has a key of its own */
    differ_both(bundle, len, other, size, below(20) ? 16 : 15);
    differ_both(other, size, bundle, len, 16);
    differ_both(bundle, len, bundle, len, 16);
    memcpy(changed, bundle, len);
    size_t at = below((uint32_t)(len - 16));
    changed[at] = (uint8_t)(changed[at] + 1 - 2 * below(2));
    differ_both(changed, len, bundle, len, 16);
    model_mac(key, changed, len - 16, changed + len - 16);
    differ_both(bundle, len, changed, len, 16);
}

/* 256 settings against 256 others, the last id of all among them. */
static void compare_large(void)
{
    some_list(2, 256);
    rows[4 * 255] = 4294967295u;
    size_t len = made(bundle, key, 2, rows, rows_len, pool, pool_len);
    some_list(2, 256);
    for (uint32_t i = 0; i < 256; i++)
        rows[4 * i] = 4294967040u + i;
    size_t size = made(other, key, 2, rows, rows_len, pool, pool_len);
    model_mac(key, bundle, len - 16, bundle + len - 16);
    differ_both(bundle, len, other, size, 16);
    differ_both(other, size, bundle, len, 16);
}

int main(void)
{
    for (unsigned i = 0; i < WALKS; i++)
        walk();
    large();
    counts("the reader", read_given, 20, 23);
    counts("the writer", write_given, 24, 25);
    for (unsigned i = 0; i < WALKS / 4; i++)
        compare();
    compare_large();
    printf("comparing: 0 given %u times, 1 %u", differ_given[0], differ_given[1]);
    for (unsigned number = 20; number <= 25; number++)
        printf(", %u %u", number, differ_given[number]);
    printf("; %u ids that differ, %u that do not\n", differing, alike_ids);
    printf("%u values, %u unknown, %u absent; %u times both readers showed a value, and %u times both said absent\n", values, unknowns, absences, both_values, both_absent);
    printf("%u calls, %u differences\n", calls, differences);
    return differences > 0;
}
