/* A random walk of 100,000 calls over everything that the library exports, with good and bad arguments and with guests that steal, and after it every bit
 * of an idle record set alone, then one of CMAC, one of streams, one of GIFT-64 and one of round words and pairs. Each call is held to model.h: the number given back, every byte, word and record lent, and every byte round them, so that a record is looked
 * at byte by byte after each take and close. The same calls on each run. Exit status 1 if anything differs. */
#include <stdio.h>
#include <string.h>

#include "model.h"

#define CALLS 100000
#define MAC_CALLS 20000 /* of CMAC, after those */
#define STREAM_CALLS 20000 /* of streams, after those */
#define GIFT64_CALLS 20000 /* of GIFT-64, after those */
#define ROW_CALLS 10000 /* of round words and pairs, after those */
#define RECORDS (LANES + 2) /* of which the first are a bench */

/* The header's names are document 01's numbers. */
_Static_assert(GIFT_DONE == 0 && GIFT_BAD_KEY_LENGTH == 1 && GIFT_BAD_BLOCK_LENGTH == 2 && GIFT_BAD_OUTPUT_LENGTH == 3, "0 to 3");
_Static_assert(GIFT_BAD_WORD_COUNT == 4 && GIFT_BAD_LANE == 5 && GIFT_LANE_NOT_IDLE == 6 && GIFT_LANE_NOT_FINISHED == 7, "4 to 7");
_Static_assert(GIFT_TOO_MANY_TURNS == 8 && GIFT_BAD_DIRECTION == 9 && GIFT_BAD_BENCH == 10 && GIFT_BAD_STATE == 10, "8 to 10");
_Static_assert(GIFT_NOT_THE_OWNER == 11 && GIFT_TOO_FEW_COUNTERS == 12 && GIFT_BAD_ORDER == 13, "11 to 13");
_Static_assert(GIFT_IDLE == 0 && GIFT_RUNNING == 1 && GIFT_FINISHED == 2 && GIFT_ENCRYPT == 0 && GIFT_DECRYPT == 1, "phases and directions");
_Static_assert(GIFT_ORDER_NUMBER == 0 && GIFT_ORDER_WORDS == 1, "orders");
_Static_assert(GIFT_BLOCK_SIZE == 16 && GIFT_KEY_SIZE == 16 && GIFT_WORDS == 80 && GIFT_LANES == LANES && GIFT_FRESH_LAST == LANES - 1, "sizes");
_Static_assert(GIFT_MOST_TURNS == 1024 && GIFT_TURNS_OF_A_LANE == 8, "turns");
_Static_assert(GIFT64_BLOCK_SIZE == 8, "GIFT-64");

/* ---- numbers at random: splitmix64 ---- */

static uint64_t seed = 128;

static uint64_t next(void)
{
    uint64_t z = seed += 0x9e3779b97f4a7c15;
    z = (z ^ z >> 30) * 0xbf58476d1ce4e5b9;
    z = (z ^ z >> 27) * 0x94d049bb133111eb;
    return z ^ z >> 31;
}

static uint32_t below(uint32_t n)
{
    return (uint32_t)(next() % n);
}

/* ---- arguments ---- */

/* Of eight arguments, how many are bad in this call: none in most, some in others, and in a few so many that the order of refusals shows. */
static uint32_t mischief;

static int bad(void)
{
    return below(8) < mischief;
}

static size_t length(size_t good)
{
    static const size_t some[] = {0, 1, 8, 10, 15, 16, 17, 31, 32, 33, 64, 79, 80, 81, 96, 160};
    return bad() ? some[below(sizeof some / sizeof *some)] : good;
}

static uint32_t number_above(uint32_t limit)
{
    uint32_t n;
    do {
        switch (below(4)) {
        case 0: n = limit + 1 + below(3); break;
        case 1: n = (1u << (8 + below(24))) + below(4); break;
        case 2: n = UINT32_MAX - below(4); break;
        default: n = (uint32_t)next(); break;
        }
    } while (n <= limit);
    return n;
}

static uint32_t up_to(uint32_t limit)
{
    return bad() ? number_above(limit) : below(limit + 1);
}

/* ---- what is lent: a part of a room, with canaries before and after it ---- */

#define CANARIES 64
#define LONGEST 65680 /* bytes that are lent at most; a record has fewer */
#define ROOM (LONGEST + 3 * CANARIES)
_Static_assert(RECORDS * sizeof(gift_lane) <= LONGEST, "room for the records");

typedef struct {
    const char *name;
    _Alignas(16) uint8_t memory[ROOM]; /* of this the library is lent a part */
    uint8_t expected[ROOM];            /* and this is what the memory must be after the call */
    size_t from, size;                 /* the part, in bytes */
    size_t length;                     /* its length, as it is passed */
    size_t all;                        /* as much of the room as is filled and compared */
} room;

static room *lent[4];
static unsigned lent_count;

/* So many elements of a size, somewhere in the room. Everything in it is random, but that some parts are all zeros or all ones. */
static void lend(room *r, const char *name, size_t length, size_t element)
{
    size_t step = element == 1 ? 1 : 4;
    r->name = name;
    r->from = CANARIES + step * below(16);
    r->size = length * element;
    r->length = length;
    r->all = r->from + r->size + CANARIES;
    for (size_t i = 0; i < r->all; i += 8) {
        uint64_t z = next();
        memcpy(r->memory + i, &z, sizeof z);
    }
    if (below(16) == 0)
        memset(r->memory + r->from, below(2) ? 0xff : 0, r->size);
    memcpy(r->expected, r->memory, r->all);
    lent[lent_count++] = r;
}

static void *part(room *r)
{
    return r->memory + r->from;
}

static uint8_t *expected(room *r)
{
    return r->expected + r->from;
}

/* ---- each call's verdict ---- */

enum {
    ENCRYPT_BY_KEY, DECRYPT_BY_KEY, ENCRYPT_BY_WORDS, DECRYPT_BY_WORDS, EXPAND, ENCRYPT_BLOCKS,
    DECRYPT_BLOCKS, ENCRYPT_BLOCKS_BY_WORDS, DECRYPT_BLOCKS_BY_WORDS, OPEN_LANE, TURN, TAKE, CLOSE, MAC, MAC_CHECK, MAC_START, MAC_PIECE, MAC_TAG,
    STREAM_START, STREAM_PIECE, ENCRYPT_64, DECRYPT_64, ENCRYPT_BLOCKS_64, DECRYPT_BLOCKS_64, PAIRS, WORDS_OF,
    PLAIN_ENCRYPT, PLAIN_DECRYPT, PLAIN_ENCRYPT_64, PLAIN_DECRYPT_64, KINDS
};

static const char *const names[KINDS] = {
    "gift_encrypt_by_key", "gift_decrypt_by_key", "gift_encrypt_by_words", "gift_decrypt_by_words", "gift_expand", "gift_encrypt_blocks",
    "gift_decrypt_blocks", "gift_encrypt_blocks_by_words", "gift_decrypt_blocks_by_words", "gift_open_lane", "gift_turn", "gift_take", "gift_close",
    "gift_mac", "gift_mac_check", "gift_mac_start", "gift_mac_piece", "gift_mac_tag",
    "gift_stream_start", "gift_stream_piece",
    "gift64_encrypt_by_key", "gift64_decrypt_by_key", "gift64_encrypt_blocks", "gift64_decrypt_blocks", "gift_pairs", "gift_words",
    "gift_plain_encrypt_by_key", "gift_plain_decrypt_by_key", "gift64_plain_encrypt_by_key", "gift64_plain_decrypt_by_key",
};

#define NUMBERS 14 /* 0 to 13 */

static unsigned calls, differences, given[KINDS][NUMBERS];

/* Counts a difference, and starts to tell it if there were not many before. */
static int differs(unsigned kind)
{
    if (++differences > 20)
        return 0;
    printf("call %u, %s: ", calls, names[kind]);
    return 1;
}

/* The first byte of a room that is not what it must be, if there is one. */
static void hold_room(unsigned kind, const room *r)
{
    size_t at = 0;
    while (at < r->all && r->memory[at] == r->expected[at])
        at++;
    if (at < r->all && differs(kind))
        printf("%s, lent at %lu, %lu bytes: byte %lu is %02x and must be %02x\n", r->name, (unsigned long)r->from, (unsigned long)r->size,
               (unsigned long)at, r->memory[at], r->expected[at]);
}

static void hold(unsigned kind, uint32_t number, uint32_t must)
{
    calls += kind < PLAIN_ENCRYPT; /* the plain engine's are made beside calls of the walk */
    given[kind][must]++;
    if (number != must && differs(kind))
        printf("the number is %u and must be %u\n", number, must);
    while (lent_count > 0)
        hold_room(kind, lent[--lent_count]);
}

/* ---- blocks and words ---- */

static room keys, blocks, outputs, words;

/* By either engine, each on the same memory; the plain one has order 0 alone. */
static void by_key(unsigned direction)
{
    static uint8_t before[ROOM];
    uint32_t number, must, order = up_to(1);
    lend(&keys, "key", length(16), 1);
    lend(&blocks, "block", length(16), 1);
    memcpy(before, blocks.memory, blocks.all);
    must = in_order(order, key_number(keys.length, blocks.length));
    if (must == 0)
        model_by_key(order, direction, expected(&keys), expected(&blocks), expected(&blocks));
    number = (direction == 0 ? gift_encrypt_by_key : gift_decrypt_by_key)(order, part(&keys), keys.length, part(&blocks), blocks.length);
    hold(direction == 0 ? ENCRYPT_BY_KEY : DECRYPT_BY_KEY, number, must);
    if (order != 0)
        return;

    memcpy(blocks.memory, before, blocks.all);
    lent[lent_count++] = &keys;
    lent[lent_count++] = &blocks;
    number = (direction == 0 ? gift_plain_encrypt_by_key : gift_plain_decrypt_by_key)(part(&keys), keys.length, part(&blocks), blocks.length);
    hold(direction == 0 ? PLAIN_ENCRYPT : PLAIN_DECRYPT, number, must);
}

static void by_words(unsigned direction)
{
    uint32_t number, must, some[80], order = up_to(1);
    lend(&words, "words", length(80), 4);
    lend(&blocks, "block", length(16), 1);
    must = in_order(order, words_number(words.length, blocks.length));
    if (must == 0) {
        memcpy(some, expected(&words), sizeof some);
        model_by_words(order, direction, some, expected(&blocks), expected(&blocks));
    }
    number = (direction == 0 ? gift_encrypt_by_words : gift_decrypt_by_words)(order, part(&words), words.length, part(&blocks), blocks.length);
    hold(direction == 0 ? ENCRYPT_BY_WORDS : DECRYPT_BY_WORDS, number, must);
}

static void expand(void)
{
    uint32_t number, must, some[80];
    lend(&keys, "key", length(16), 1);
    lend(&words, "words", length(80), 4);
    must = expand_number(keys.length, words.length);
    if (must == 0) {
        model_expand(expected(&keys), some);
        memcpy(expected(&words), some, sizeof some);
    }
    number = gift_expand(part(&keys), keys.length, part(&words), words.length);
    hold(EXPAND, number, must);
}

/* What calls on long inputs are held to, after the walk. */
static int fixed;
static size_t fixed_length;
static uint32_t fixed_order;

/* Of fewer blocks than a group of eight, and of up to three groups with any rest. */
static size_t some_blocks(void)
{
    return fixed ? fixed_length : 16 * (below(2) ? below(6) : below(28));
}

static uint32_t some_order(void)
{
    return fixed ? fixed_order : up_to(1);
}

static void many(unsigned direction)
{
    uint32_t number, must, order = some_order();
    lend(&keys, "key", length(16), 1);
    lend(&blocks, "input", length(some_blocks()), 1);
    lend(&outputs, "output", length(blocks.length), 1);
    must = in_order(order, many_number(keys.length, blocks.length, outputs.length));
    if (must == 0)
        for (size_t at = 0; at < blocks.length; at += 16)
            model_by_key(order, direction, expected(&keys), expected(&blocks) + at, expected(&outputs) + at);
    number = (direction == 0 ? gift_encrypt_blocks : gift_decrypt_blocks)(order, part(&keys), keys.length, part(&blocks), blocks.length,
                                                                          part(&outputs), outputs.length);
    hold(direction == 0 ? ENCRYPT_BLOCKS : DECRYPT_BLOCKS, number, must);
}

static void many_by_words(unsigned direction)
{
    uint32_t number, must, some[80], order = some_order();
    lend(&words, "words", length(80), 4);
    lend(&blocks, "input", length(some_blocks()), 1);
    lend(&outputs, "output", length(blocks.length), 1);
    must = in_order(order, many_words_number(words.length, blocks.length, outputs.length));
    if (must == 0) {
        memcpy(some, expected(&words), sizeof some);
        for (size_t at = 0; at < blocks.length; at += 16)
            model_by_words(order, direction, some, expected(&blocks) + at, expected(&outputs) + at);
    }
    number = (direction == 0 ? gift_encrypt_blocks_by_words : gift_decrypt_blocks_by_words)(order, part(&words), words.length, part(&blocks), blocks.length,
                                                                                            part(&outputs), outputs.length);
    hold(direction == 0 ? ENCRYPT_BLOCKS_BY_WORDS : DECRYPT_BLOCKS_BY_WORDS, number, must);
}

/* ---- the bench ---- */

static gift_lane records[RECORDS];  /* as the model has them */
static uint32_t served = LANES - 1; /* the lane last served */
static int opened[LANES];           /* by gift_open_lane, and not a record of the host's making; */
static uint8_t promised[LANES][16]; /* then this is what the lane must yield */
static unsigned made_by_host, unsound, one_bits, slices, lasts, turns_made, yielded, stolen, nobodys, in_words;

static room benches;

static void store_records(uint8_t *to)
{
    memcpy(to, records, sizeof records);
}

/* All the records lie there, and so many of them are lent: those behind a short slice must not change either. */
static void lend_bench(size_t lanes_len)
{
    lend(&benches, "records", RECORDS, sizeof(gift_lane));
    store_records(part(&benches));
    memcpy(benches.expected, benches.memory, benches.all);
    benches.length = lanes_len;
    benches.size = lanes_len * sizeof(gift_lane);
}

/* The guests: some numbers alike in their low byte, some in their high one. */
static const uint16_t guests[] = {1, 2, 255, 256, 257, 258, 512, 32769, 65535};

static uint16_t some_guest(void)
{
    return guests[below(sizeof guests / sizeof *guests)];
}

/* Who takes or closes: mostly the lane's owner, and else some guest, nobody, or a number that differs from the owner's in one bit. */
static uint16_t some_caller(uint32_t lane)
{
    uint16_t owner = lane < LANES ? records[lane].owner : 0;
    if (below(3) != 0)
        return owner;
    switch (below(3)) {
    case 0: return some_guest();
    case 1: return 0;
    default: return (uint16_t)(owner ^ 1u << below(16));
    }
}

/* A sound record such as a host may make: idle and all zero, or busy with any words on any state. */
static gift_lane some_record(void)
{
    gift_lane l;
    for (unsigned i = 0; i < 80; i++)
        l.words[i] = (uint32_t)next();
    l.state = (gift_state){(uint32_t)next(), (uint32_t)next(), (uint32_t)next(), (uint32_t)next()};
    l.phase = (uint8_t)below(3);
    l.direction = (uint8_t)below(2);
    l.owner = some_guest();
    l.count = (uint16_t)(l.phase == 1 ? below(8) : 8);
    l.order = (uint16_t)below(2);
    return l.phase == 0 ? (gift_lane){0} : l;
}

static void spoil(gift_lane *l)
{
    static const uint16_t off[][2] = {
        {0, 1}, {0, 8}, {0, 255}, {0, 256}, {0, 65280}, {1, 8}, {1, 9}, {1, 256}, {1, 263}, {1, 65535}, {1, 32768}, {2, 0}, {2, 7}, {2, 9}, {2, 264}, {2, 2048}, {2, 32776},
        {2, 65535}, {3, 0}, {3, 8}, {255, 0}, {255, 8},
    };
    static const uint8_t directions[] = {2, 3, 128, 255};
    static const uint16_t orders[] = {2, 3, 255, 256, 257, 32768, 65535};
    if (l->phase == 0 && below(4) != 0) {
        /* one bit, in any field or any of the 84 words, makes an idle record unsound */
        uint8_t *byte = (uint8_t *)l + below(sizeof *l);
        *byte |= (uint8_t)(1u << below(8));
    } else if (below(4) == 0) {
        l->direction = directions[below(sizeof directions)];
    } else if (below(4) == 0) {
        l->order = orders[below(sizeof orders / sizeof *orders)];
    } else if (below(4) == 0 && l->phase != 0) {
        l->owner = 0;
    } else {
        uint32_t n = below(sizeof off / sizeof *off);
        l->phase = (uint8_t)off[n][0];
        l->count = off[n][1];
    }
}

static void open_lane(size_t lanes_len, uint32_t last)
{
    uint32_t number, must, lane = up_to(LANES - 1), direction = up_to(1), order = up_to(1);
    uint16_t owner = bad() ? 0 : some_guest();
    lend(&keys, "key", length(16), 1);
    lend(&blocks, "block", length(16), 1);
    must = open_number(records, lanes_len, last, lane, owner, direction, order, keys.length, blocks.length);
    if (must == 0) {
        model_open(&records[lane], owner, direction, order, expected(&keys), expected(&blocks));
        model_by_key(order, direction, expected(&keys), expected(&blocks), promised[lane]);
        in_words += order;
        opened[lane] = 1;
    }
    store_records(expected(&benches));
    number = gift_open_lane(part(&benches), lanes_len, last, lane, owner, direction, order, part(&keys), keys.length, part(&blocks),
                            blocks.length);
    hold(OPEN_LANE, number, must);
    nobodys += must == 11;
}

static void turn(size_t lanes_len, uint32_t last)
{
    uint32_t must, made = 0, after = last, asked = bad() ? number_above(1024) : below(16) ? below(12) : below(2) ? 1024 : below(1024);
    gift_turns told;
    must = turn_number(records, lanes_len, last, asked);
    if (must == 0) {
        made = model_turn(records, &after, asked);
        served = after;
        turns_made += made;
    }
    store_records(expected(&benches));
    told = gift_turn(part(&benches), lanes_len, last, asked);
    hold(TURN, told.code, must);
    if ((told.made != made || told.last != after) && differs(TURN))
        printf("of %u turns asked %u are made, last served %u, and must be %u, %u\n", asked, told.made, told.last, made, after);
}

static void take(size_t lanes_len, uint32_t last)
{
    uint32_t number, must, lane = up_to(LANES - 1);
    uint16_t caller = some_caller(lane);
    lend(&outputs, "take buffer", length(16), 1);
    must = take_number(records, lanes_len, last, lane, caller, outputs.length);
    stolen += must == 11 && records[lane].phase == 2;
    if (must == 0)
        model_take(&records[lane], expected(&outputs));
    store_records(expected(&benches));
    number = gift_take(part(&benches), lanes_len, last, lane, caller, part(&outputs), outputs.length);
    hold(TAKE, number, must);
    if (must == 0 && opened[lane]) {
        yielded++;
        if (memcmp(part(&outputs), promised[lane], 16) != 0 && differs(TAKE))
            printf("lane %u does not yield what its key and block give\n", lane);
    }
}

static void close_lane(size_t lanes_len, uint32_t last)
{
    uint32_t number, must, lane = up_to(LANES - 1);
    uint16_t caller = some_caller(lane);
    must = close_number(records, lanes_len, last, lane, caller);
    if (must == 0)
        model_close(&records[lane]);
    store_records(expected(&benches));
    number = gift_close(part(&benches), lanes_len, last, lane, caller);
    hold(CLOSE, number, must);
}

static void call_bench(uint32_t kind, size_t lanes_len, uint32_t last)
{
    lend_bench(lanes_len);
    switch (kind) {
    case 0: open_lane(lanes_len, last); break;
    case 1: turn(lanes_len, last); break;
    case 2: take(lanes_len, last); break;
    default: close_lane(lanes_len, last); break;
    }
}

static uint32_t mood; /* which call is made most, for some calls: so benches get full, and are turned and emptied */

/* A call on the bench as the calls before it left it; now and then the host has put a sound record of its own making there, or any last served
 * number. A bench is damaged for one call, which must leave it so, and is then put right. */
static void on_the_bench(void)
{
    gift_lane right = {0}, *damaged = NULL;
    size_t lanes_len = LANES;
    uint32_t kind, last;

    if (below(6) == 0)
        mood = below(3);
    kind = below(4) == 0 ? below(4) : mood;
    if (below(50) == 0) {
        uint32_t lane = below(LANES);
        records[lane] = some_record();
        opened[lane] = 0;
        made_by_host++;
    }
    if (below(50) == 0)
        served = below(LANES);

    last = served;
    if (bad() && below(2) == 0) {
        damaged = &records[below(LANES)];
        right = *damaged;
        spoil(damaged);
        unsound++;
    }
    if (bad() && below(4) == 0) {
        static const size_t others[] = {0, 1, 4, LANES - 1, LANES + 1, LANES + 2};
        lanes_len = others[below(6)];
        slices++;
    }
    if (bad() && below(4) == 0) {
        last = number_above(LANES - 1);
        lasts++;
    }

    call_bench(kind, lanes_len, last);
    if (damaged != NULL)
        *damaged = right;
}

/* Every bit of an idle record, in every lane, before each of the four calls: set alone, it makes the record unsound. (A running record has an owner.) */
static void every_bit(void)
{
    mischief = 0;
    for (uint32_t lane = 0; lane < LANES; lane++) {
        gift_lane right = records[lane];
        for (size_t bit = 0; bit < 8 * sizeof right; bit++) {
            records[lane] = (gift_lane){0};
            ((uint8_t *)&records[lane])[bit / 8] = (uint8_t)(1u << bit % 8);
            for (uint32_t kind = 0; kind < 4; kind++, one_bits++)
                call_bench(kind, LANES, served);
        }
        records[lane] = right;
    }
}

/* ---- CMAC ---- */

static gift_mac_state mac;               /* as the model has it */
static uint8_t fed[4096], mac_key[16];   /* all that was fed to it since its start, and by which key */
static size_t fed_len;
static int by_a_key;                     /* and not a state of the host's making */
static unsigned yeses, whole_tags;

static void whole(void)
{
    uint32_t number, must;
    lend(&keys, "key", length(16), 1);
    lend(&blocks, "message", length(below(100)), 1);
    lend(&outputs, "tag", length(16), 1);
    must = key_number(keys.length, outputs.length);
    if (must == 0)
        model_mac(expected(&keys), expected(&blocks), blocks.length, expected(&outputs));
    number = gift_mac(part(&keys), keys.length, part(&blocks), blocks.length, part(&outputs), outputs.length);
    hold(MAC, number, must);
}

/* The message's tag in half of the calls, and one that differs in one bit, or all of it, in the others. */
static void check(void)
{
    uint32_t must, yes;
    uint8_t tag[16];
    gift_mac_checked told;
    lend(&keys, "key", length(16), 1);
    lend(&blocks, "message", length(below(100)), 1);
    lend(&outputs, "tag", length(16), 1);
    must = key_number(keys.length, outputs.length);
    if (must == 0) {
        model_mac(expected(&keys), expected(&blocks), blocks.length, tag);
        if (below(4) != 0) {
            memcpy(expected(&outputs), tag, 16);
            if (below(2) == 0)
                expected(&outputs)[below(16)] ^= (uint8_t)(1u << below(8));
            memcpy(part(&outputs), expected(&outputs), 16);
        }
    }
    yes = must == 0 && memcmp(expected(&outputs), tag, 16) == 0;
    told = gift_mac_check(part(&keys), keys.length, part(&blocks), blocks.length, part(&outputs), outputs.length);
    hold(MAC_CHECK, told.code, must);
    yeses += yes;
    if (told.yes != yes && differs(MAC_CHECK))
        printf("it says %u and must say %u\n", told.yes, yes);
}

static void hold_state(unsigned kind, gift_mac_state told)
{
    if (memcmp(&told, &mac, sizeof mac) != 0 && differs(kind))
        printf("the state given back is not what it must be\n");
}

static void start(void)
{
    gift_mac_told told;
    uint32_t must;
    lend(&keys, "key", length(16), 1);
    must = keys.length != 16;
    model_start(&mac, must == 0 ? expected(&keys) : NULL);
    fed_len = 0;
    by_a_key = must == 0;
    if (by_a_key)
        memcpy(mac_key, expected(&keys), 16);
    told = gift_mac_start(part(&keys), keys.length);
    hold(MAC_START, told.code, must);
    hold_state(MAC_START, told.state);
}

static void piece(void)
{
    gift_mac_state given = mac;
    gift_mac_told told;
    uint32_t must;
    lend(&blocks, "piece", below(4) ? below(40) : 16 * below(5), 1);
    must = state_number(&mac);
    if (must == 0) {
        model_piece(&mac, expected(&blocks), blocks.length);
        if (fed_len + blocks.length > sizeof fed)
            by_a_key = 0;
        if (by_a_key) {
            memcpy(fed + fed_len, expected(&blocks), blocks.length);
            fed_len += blocks.length;
        }
    }
    told = gift_mac_piece(given, part(&blocks), blocks.length);
    hold(MAC_PIECE, told.code, must);
    hold_state(MAC_PIECE, told.state);
}

static void tag_of_state(void)
{
    uint32_t number, must;
    uint8_t tag[16];
    lend(&outputs, "tag", length(16), 1);
    must = tag_number(&mac, outputs.length);
    if (must == 0)
        model_tag(&mac, expected(&outputs));
    number = gift_mac_tag(mac, part(&outputs), outputs.length);
    hold(MAC_TAG, number, must);
    if (must == 0 && by_a_key) {
        whole_tags++;
        model_mac(mac_key, fed, fed_len, tag);
        if (memcmp(part(&outputs), tag, 16) != 0 && differs(MAC_TAG))
            printf("it is not the tag of the whole message\n");
    }
}

/* Tags that oracle/cmac_model.py gave, of the first bytes of 00 01 02 .. by the key 00 .. 0f. */
static unsigned known_tags(void)
{
    static const struct {
        size_t length;
        uint8_t tag[16];
    } known[] = {
        {0, {0x08, 0x42, 0x1a, 0x6b, 0x56, 0x6b, 0xeb, 0x7d, 0x6e, 0x82, 0x14, 0x3a, 0x56, 0x89, 0x35, 0xb1}},
        {1, {0x0b, 0x8e, 0x08, 0x0d, 0xdd, 0xfd, 0x5b, 0x31, 0x1c, 0xbb, 0xc4, 0x32, 0x91, 0xff, 0x1d, 0xf9}},
        {15, {0xfe, 0xa0, 0xb5, 0xe3, 0x6c, 0x09, 0x3b, 0x60, 0xa5, 0x61, 0x64, 0x19, 0xa8, 0xc8, 0xad, 0xb0}},
        {16, {0x04, 0x1a, 0xd8, 0xb7, 0x96, 0x41, 0x2d, 0x03, 0xe1, 0x54, 0xa3, 0xf0, 0xa9, 0x83, 0x33, 0xd3}},
        {17, {0xd5, 0x11, 0x87, 0xe6, 0x28, 0xcc, 0x40, 0x49, 0x73, 0x49, 0x3c, 0x26, 0x0f, 0x3e, 0x8b, 0x24}},
        {32, {0x96, 0xa0, 0x05, 0xa4, 0xec, 0xb2, 0xc8, 0x7e, 0xbb, 0x44, 0x72, 0xfd, 0x86, 0xde, 0x9b, 0xb5}},
        {64, {0xcd, 0xfe, 0x38, 0x0c, 0x6c, 0x06, 0x15, 0x52, 0xb0, 0x4a, 0x1d, 0xd1, 0xee, 0xc7, 0x0f, 0x7d}},
        {200, {0x0d, 0x2e, 0x19, 0x18, 0xcf, 0xb6, 0x01, 0x1f, 0x85, 0xa5, 0x41, 0x76, 0xec, 0x9b, 0xca, 0xc3}},
        {4096, {0x15, 0x07, 0x0c, 0xad, 0x98, 0xf1, 0x1c, 0xcc, 0x5b, 0x66, 0x3c, 0xf5, 0x44, 0xb7, 0xa3, 0x97}},
    };
    const unsigned count = sizeof known / sizeof *known;
    for (size_t i = 0; i < sizeof fed; i++)
        fed[i] = (uint8_t)i;
    for (unsigned n = 0; n < count; n++) {
        uint8_t tag[16];
        if ((gift_mac(fed, 16, fed, known[n].length, tag, 16) != GIFT_DONE || memcmp(tag, known[n].tag, 16) != 0) && differs(MAC))
            printf("the tag of %lu bytes is not the stored one\n", (unsigned long)known[n].length);
    }
    return count;
}

/* Now and then the state is the host's: any words, bytes and count, and for one call more than 16 held. */
static void on_a_state(void)
{
    uint32_t right = mac.count;
    int damaged = bad();
    if (below(40) == 0) {
        for (unsigned i = 0; i < 80; i++)
            mac.words[i] = (uint32_t)next();
        for (unsigned i = 0; i < 16; i++) {
            mac.chain[i] = (uint8_t)next();
            mac.held[i] = (uint8_t)next();
        }
        right = mac.count = below(17);
        by_a_key = 0;
    }
    if (damaged)
        mac.count = number_above(16);
    if (below(2))
        piece();
    else
        tag_of_state();
    if (damaged)
        mac.count = right;
}

/* ---- streams ---- */

static room streams;
static gift_stream stream; /* as the model has it */
static unsigned forged, spent_served;

static void start_stream(void)
{
    gift_stream_started told;
    uint32_t must, first = below(2) ? (uint32_t)next() : (uint32_t)-1 - below(6);
    lend(&keys, "key", length(16), 1);
    lend(&blocks, "nonce", length(12), 1);
    must = stream_start_number(keys.length, blocks.length);
    model_stream_start(&stream, must == 0 ? expected(&keys) : NULL, expected(&blocks), first);
    told = gift_stream_start(part(&keys), keys.length, part(&blocks), blocks.length, first);
    hold(STREAM_START, told.code, must);
    if (memcmp(&told.stream, &stream, sizeof stream) != 0 && differs(STREAM_START))
        printf("the stream given back is not what it must be\n");
}

static void stream_piece(void)
{
    uint32_t number, must;
    lend(&streams, "stream", 1, sizeof stream);
    lend(&blocks, "input", fixed ? fixed_length : below(4) ? below(40) : 16 * below(5), 1);
    lend(&outputs, "output", length(blocks.length), 1);
    memcpy(part(&streams), &stream, sizeof stream);
    must = stream_piece_number(&stream, blocks.length, outputs.length);
    if (must == 0) {
        spent_served += stream.spent && blocks.length > 0;
        model_stream_piece(&stream, expected(&blocks), blocks.length, expected(&outputs));
    }
    memcpy(expected(&streams), &stream, sizeof stream);
    number = gift_stream_piece(part(&streams), part(&blocks), blocks.length, part(&outputs), outputs.length);
    hold(STREAM_PIECE, number, must);
}

/* Now and then the stream is the host's: any words, bytes and numbers, and for one call more than 15 unused. */
static void on_a_stream(void)
{
    uint32_t right = stream.unused;
    int damaged = bad();
    if (below(40) == 0) {
        for (size_t i = 0; i < sizeof stream; i++)
            ((uint8_t *)&stream)[i] = (uint8_t)next();
        right = stream.unused = below(16);
        stream.spent = below(2) ? 0 : (uint32_t)next();
        forged++;
    }
    if (damaged)
        stream.unused = number_above(15);
    stream_piece();
    if (damaged)
        stream.unused = right;
}

/* ---- long inputs: lengths round a group of 64 blocks, two of them, and 64 KiB ---- */

static unsigned long_ones;

static void long_inputs(void)
{
    static const size_t lengths[] = {1008, 1024, 1040, 1072, 1136, 1152, 1280, 2032, 2048, 2064, 5136, 65520, 65536, 65552, 65664};
    fixed = 1;
    mischief = 0;
    for (unsigned i = 0; i < sizeof lengths / sizeof *lengths; i++)
        for (unsigned direction = 0; direction < 2; direction++)
            for (fixed_order = 0; fixed_order < 2; fixed_order++) {
                fixed_length = lengths[i];
                if (fixed_length < 65520 || fixed_order == direction)
                    many(direction), long_ones++;
                if (fixed_length < 65520 || fixed_order != direction)
                    many_by_words(direction), long_ones++;
            }
    /* and in counter mode, each with no byte unused and with five */
    for (unsigned i = 0; i < sizeof lengths / sizeof *lengths; i++)
        for (unsigned odd = 0; odd < 2; odd++) {
            uint8_t own[28];
            for (unsigned k = 0; k < sizeof own; k++)
                own[k] = (uint8_t)next();
            model_stream_start(&stream, own, own + 16, below(1000));
            fixed_length = 11;
            if (odd)
                stream_piece();
            fixed_length = lengths[i] + odd;
            stream_piece();
            long_ones++;
        }
    fixed = 0;
}

/* ---- GIFT-64 ---- */

/* By either engine, each on the same memory. */
static void by_key_64(unsigned direction)
{
    static uint8_t before[ROOM];
    uint32_t number, must;
    lend(&keys, "key", length(16), 1);
    lend(&blocks, "block", length(8), 1);
    memcpy(before, blocks.memory, blocks.all);
    must = key_number_64(keys.length, blocks.length);
    if (must == 0)
        model_64(direction, expected(&keys), expected(&blocks), expected(&blocks));
    number = (direction == 0 ? gift64_encrypt_by_key : gift64_decrypt_by_key)(part(&keys), keys.length, part(&blocks), blocks.length);
    hold(ENCRYPT_64 + direction, number, must);

    memcpy(blocks.memory, before, blocks.all);
    lent[lent_count++] = &keys;
    lent[lent_count++] = &blocks;
    number = (direction == 0 ? gift64_plain_encrypt_by_key : gift64_plain_decrypt_by_key)(part(&keys), keys.length, part(&blocks), blocks.length);
    hold(PLAIN_ENCRYPT_64 + direction, number, must);
}

static void many_64(unsigned direction)
{
    uint32_t number, must;
    lend(&keys, "key", length(16), 1);
    lend(&blocks, "input", length(8 * below(12)), 1);
    lend(&outputs, "output", length(blocks.length), 1);
    must = many_number_64(keys.length, blocks.length, outputs.length);
    if (must == 0)
        for (size_t at = 0; at < blocks.length; at += 8)
            model_64(direction, expected(&keys), expected(&blocks) + at, expected(&outputs) + at);
    number = (direction == 0 ? gift64_encrypt_blocks : gift64_decrypt_blocks)(part(&keys), keys.length, part(&blocks), blocks.length, part(&outputs),
                                                                              outputs.length);
    hold(ENCRYPT_BLOCKS_64 + direction, number, must);
}

/* The designers' vectors: key, block, and what it is encrypted to. */
static unsigned known_64(void)
{
    static const uint8_t known[][32] = {
        {0xfe, 0xdc, 0xba, 0x98, 0x76, 0x54, 0x32, 0x10, 0xfe, 0xdc, 0xba, 0x98, 0x76, 0x54, 0x32, 0x10,
         0xfe, 0xdc, 0xba, 0x98, 0x76, 0x54, 0x32, 0x10, 0xc1, 0xb7, 0x1f, 0x66, 0x16, 0x0f, 0xf5, 0x87},
        {0, 0, 0, 0, 0, 0, 0, 0, 0, 0, 0, 0, 0, 0, 0, 0,
         0, 0, 0, 0, 0, 0, 0, 0, 0xf6, 0x2b, 0xc3, 0xef, 0x34, 0xf7, 0x75, 0xac},
        {0xbd, 0x91, 0x73, 0x1e, 0xb6, 0xbc, 0x27, 0x13, 0xa1, 0xf9, 0xf6, 0xff, 0xc7, 0x50, 0x44, 0xe7,
         0xc4, 0x50, 0xc7, 0x72, 0x7a, 0x9b, 0x8a, 0x7d, 0xe3, 0x27, 0x28, 0x85, 0xfa, 0x94, 0xba, 0x8b},
    };
    const unsigned count = sizeof known / sizeof *known;
    for (unsigned n = 0; n < count; n++) {
        uint8_t block[8];
        memcpy(block, known[n] + 16, 8);
        if ((gift64_encrypt_by_key(known[n], 16, block, 8) != 0 || memcmp(block, known[n] + 24, 8) != 0) && differs(ENCRYPT_64))
            printf("vector %u is not the designers'\n", n);
        if ((gift64_decrypt_by_key(known[n], 16, block, 8) != 0 || memcmp(block, known[n] + 16, 8) != 0) && differs(DECRYPT_64))
            printf("vector %u is not the designers'\n", n);
    }
    return count;
}

/* ---- round words and pairs ---- */

static unsigned same_again;

/* Each way; and what one call made, the other makes what it was of. */
static void rows(unsigned back)
{
    uint32_t number, must, from[80], made[80];
    lend(&words, back ? "words" : "pairs", length(80), 4);
    lend(&outputs, back ? "pairs" : "words", length(80), 4);
    must = row_number(words.length, outputs.length);
    if (must == 0) {
        memcpy(from, expected(&words), sizeof from);
        (back ? model_pairs : model_words)(from, made);
        memcpy(expected(&outputs), made, sizeof made);
    }
    number = (back ? gift_pairs : gift_words)(part(&words), words.length, part(&outputs), outputs.length);
    hold(back ? PAIRS : WORDS_OF, number, must);
    if (must == 0) {
        number = (back ? gift_words : gift_pairs)(part(&outputs), 80, made, 80);
        if ((number != 0 || memcmp(made, from, sizeof made) != 0) && differs(back ? WORDS_OF : PAIRS))
            printf("it does not make what it was of\n");
        same_again++;
    }
}

int main(void)
{
    if (gift_host_edition() != GIFT_HOST_EDITION) {
        printf("the library is of edition %u, and the header of %d\n", gift_host_edition(), GIFT_HOST_EDITION);
        return 1;
    }
    for (unsigned i = LANES; i < RECORDS; i++)
        records[i] = some_record();
    while (calls < CALLS) {
        uint32_t kind = below(20);
        mischief = below(8) < 5 ? 0 : below(4) ? 2 : 5;
        switch (kind) {
        case 0: case 1: by_key(kind % 2); break;
        case 2: case 3: by_words(kind % 2); break;
        case 4: expand(); break;
        case 5: case 6: many(kind % 2); break;
        case 7: case 8: many_by_words(kind % 2); break;
        default: on_the_bench(); break;
        }
    }
    every_bit();
    for (unsigned end = calls + MAC_CALLS; calls < end;) {
        mischief = below(8) < 5 ? 0 : below(4) ? 2 : 5;
        switch (below(12)) {
        case 0: start(); break;
        case 1: case 2: whole(); break;
        case 3: case 4: check(); break;
        default: on_a_state(); break;
        }
    }
    for (unsigned end = calls + STREAM_CALLS; calls < end;) {
        mischief = below(8) < 5 ? 0 : below(4) ? 2 : 5;
        if (below(10) == 0)
            start_stream();
        else
            on_a_stream();
    }

    for (unsigned end = calls + GIFT64_CALLS; calls < end;) {
        uint32_t kind = below(6);
        mischief = below(8) < 5 ? 0 : below(4) ? 2 : 5;
        if (kind < 4)
            by_key_64(kind % 2);
        else
            many_64(kind % 2);
    }
    for (unsigned end = calls + ROW_CALLS; calls < end;) {
        mischief = below(8) < 5 ? 0 : below(4) ? 2 : 5;
        rows(below(2));
    }
    long_inputs();

    printf("%-30s", "number given back:");
    for (unsigned number = 0; number < NUMBERS; number++)
        printf("%7u", number);
    for (unsigned kind = 0; kind < PLAIN_ENCRYPT; kind++) {
        printf("\n%-30s", names[kind]);
        for (unsigned number = 0; number < NUMBERS; number++)
            printf("%7u", given[kind][number]);
    }
    printf("\n");
    printf("%u turns were made; %u opened lanes yielded what GIFT-128 gives\n", turns_made, yielded);
    printf("%u lanes were opened in order 1\n", in_words);
    printf("%u takes of finished lanes were thefts, and %u openings nobody's: refused with 11\n", stolen, nobodys);
    printf("%u sound records were the host's; %u calls met an unsound one, %u a slice of another length, %u a last served number that is no lane's\n", made_by_host,
           unsound, slices, lasts);
    printf("%u calls met an idle record with one bit set, each bit of each lane's record before each of the four calls\n", one_bits);
    printf("%u of the calls by a key were made by the plain engine, too, on the same memory\n",
           given[PLAIN_ENCRYPT][0] + given[PLAIN_ENCRYPT][1] + given[PLAIN_ENCRYPT][2] + given[PLAIN_DECRYPT][0] + given[PLAIN_DECRYPT][1] + given[PLAIN_DECRYPT][2]);
    printf("%u of GIFT-64's, too; %u of its designers' vectors, both ways\n",
           given[PLAIN_ENCRYPT_64][0] + given[PLAIN_ENCRYPT_64][1] + given[PLAIN_ENCRYPT_64][2] + given[PLAIN_DECRYPT_64][0] + given[PLAIN_DECRYPT_64][1] + given[PLAIN_DECRYPT_64][2], known_64());
    printf("%u checks said yes; %u tags of states were those of the whole message; %u stored tags\n", yeses, whole_tags, known_tags());
    printf("%u streams were the host's; %u pieces were served by one that is spent\n", forged, spent_served);
    printf("%u rows of words or pairs were made what they were of again\n", same_again);
    printf("%u calls were on lengths round 1,024 bytes and 64 KiB\n", long_ones);
    printf("%u calls, %u differences\n", calls, differences);
    return differences > 0;
}
