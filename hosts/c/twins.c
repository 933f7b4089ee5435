/* Twin histories: the same calls by several guests on two fresh benches, alike but for the bytes of one guest's keys and blocks and of what it lends for its
 * takes. Every number given back and every turn told must be the same in both, and so must what stands in every other guest's take buffer, done or
 * refused. The same calls on each run. Exit status 1 if anything differs. */
#include <stdio.h>
#include <string.h>

#include "../../include/gift_host.h"

#define HISTORIES 1000
#define CALLS 400 /* of each history */
#define NUMBERS 14 /* 0 to 13 */

/* ---- numbers at random: splitmix64 ---- */

static uint64_t seed = 6;

static uint64_t next(void)
{
    uint64_t z = seed += 0x9e3779b97f4a7c15;
    z = (z ^ z >> 30) * 0xbf58476d1ce4e5b9;
    z = (z ^ z >> 27) * 0x94d049bb133111eb;
    return z ^ z >> 31;
}

static uint32_t below(uint32_t n)
{
    return (uint32_t)(next() % n);
}

/* ---- two benches ---- */

typedef struct {
    gift_lane lanes[GIFT_LANES];
    uint32_t last;
} bench;

static bench twin[2];

static const uint16_t guests[] = {1, 2, 257, 512, 65535};

#define GUESTS (sizeof guests / sizeof *guests)

static uint16_t secret; /* the guest whose bytes differ */

static unsigned calls, differences, given[NUMBERS], other_bytes, own_takes, own_differ, thefts;

static void differs(const char *what)
{
    if (++differences <= 20)
        printf("call %u: %s differs\n", calls, what);
}

static void numbers(uint32_t one, uint32_t two)
{
    calls++;
    if (one < NUMBERS)
        given[one]++;
    if (one != two)
        differs("the number");
}

/* Bytes for both: the same, or the guest's own twice over. */
static void fill(uint8_t bytes[2][32], uint16_t guest)
{
    for (unsigned i = 0; i < 32; i++)
        bytes[0][i] = bytes[1][i] = (uint8_t)next();
    if (guest == secret)
        for (unsigned i = 0; i < 32; i++)
            bytes[1][i] = (uint8_t)next();
}

static size_t length(void)
{
    return below(16) == 0 ? below(32) : 16;
}

static uint32_t lane_number(void)
{
    return below(32) == 0 ? GIFT_LANES + below(3) : below(GIFT_LANES);
}

/* Guest 0 is nobody. */
static uint16_t some_guest(void)
{
    return below(32) == 0 ? 0 : guests[below(GUESTS)];
}

static void open_lane(void)
{
    static uint8_t key[2][32], block[2][32];
    uint32_t code[2], lane = lane_number(), direction = below(32) == 0 ? 2 + below(3) : below(2), order = below(32) == 0 ? 2 + below(3) : below(2);
    uint16_t owner = some_guest();
    size_t key_len = length(), block_len = length();
    fill(key, owner);
    fill(block, owner);
    for (unsigned t = 0; t < 2; t++)
        code[t] = gift_open_lane(twin[t].lanes, GIFT_LANES, twin[t].last, lane, owner, direction, order, key[t], key_len, block[t],
                                 block_len);
    numbers(code[0], code[1]);
}

static void turn(void)
{
    gift_turns told[2];
    uint32_t asked = below(64) == 0 ? 1025 : below(24);
    for (unsigned t = 0; t < 2; t++) {
        told[t] = gift_turn(twin[t].lanes, GIFT_LANES, twin[t].last, asked);
        twin[t].last = told[t].last;
    }
    numbers(told[0].code, told[1].code);
    if (told[0].made != told[1].made)
        differs("the number of turns");
    if (told[0].last != told[1].last)
        differs("the last served number");
}

/* Mostly by the lane's owner, whose number the host has; and else by another, who steals. */
static uint16_t some_caller(uint32_t lane)
{
    return lane < GIFT_LANES && below(3) != 0 ? twin[0].lanes[lane].owner : some_guest();
}

static void take(void)
{
    static uint8_t out[2][32];
    uint32_t code[2], lane = lane_number();
    uint16_t caller = some_caller(lane);
    size_t out_len = length();
    fill(out, caller);
    for (unsigned t = 0; t < 2; t++)
        code[t] = gift_take(twin[t].lanes, GIFT_LANES, twin[t].last, lane, caller, out[t], out_len);
    numbers(code[0], code[1]);
    thefts += code[0] == GIFT_NOT_THE_OWNER && twin[0].lanes[lane].owner == secret && twin[0].lanes[lane].phase == GIFT_FINISHED;
    if (caller != secret) {
        if (memcmp(out[0], out[1], sizeof out[0]) != 0)
            differs("a take buffer");
        other_bytes += code[0] == GIFT_DONE;
    } else if (code[0] == GIFT_DONE) {
        own_takes++;
        own_differ += memcmp(out[0], out[1], 16) != 0;
    }
}

static void close_lane(void)
{
    uint32_t code[2], lane = lane_number();
    uint16_t caller = some_caller(lane);
    for (unsigned t = 0; t < 2; t++)
        code[t] = gift_close(twin[t].lanes, GIFT_LANES, twin[t].last, lane, caller);
    numbers(code[0], code[1]);
}

int main(void)
{
    if (gift_host_edition() != GIFT_HOST_EDITION) {
        printf("another edition of the library is linked: %u\n", gift_host_edition());
        return 1;
    }
    for (unsigned history = 0; history < HISTORIES; history++) {
        memset(twin, 0, sizeof twin);
        twin[0].last = twin[1].last = GIFT_FRESH_LAST;
        secret = guests[history % GUESTS];
        for (unsigned i = 0; i < CALLS; i++)
            switch (below(8)) {
            case 0: case 1: case 2: open_lane(); break;
            case 3: case 4: turn(); break;
            case 5: case 6: take(); break;
            default: close_lane(); break;
            }
    }
    printf("number given back:");
    for (unsigned number = 0; number < NUMBERS; number++)
        printf(" %u: %u%s", number, given[number], number < NUMBERS - 1 ? "," : "\n");
    printf("%u takes by the other guests were done, and their bytes are the same in both histories\n", other_bytes);
    printf("%u takes by the guest whose bytes differ were done, and %u of them gave different bytes\n", own_takes, own_differ);
    printf("%u takes of its finished lanes by others were refused with 11\n", thefts);
    printf("%u pairs of calls in %u twin histories, %u differences\n", calls, HISTORIES, differences);
    return differences > 0 || own_differ == 0 || thefts == 0;
}
