/* What a call over lent records costs: its time, beside the bare work in it, and its stack; and a block by the plain engine. `speed/bench` builds and runs it.
 *
 * A time is read from the processor's time stamp counter: the median of many calls, each on the same records, less that of a call that does nothing.
 * q, a quintuple round, is an eighth of gift_encrypt_by_words on one block; e is gift_expand; k is one block by a key by the fixsliced engine, the same way.
 * A stack is what a call writes below its caller: the call runs on a stack of its own that was painted before. */
#include <stdint.h>
#include <stdio.h>
#include <stdlib.h>
#include <string.h>

#include "../include/gift_host.h"
#include "measure.h"

#define SAMPLES 1001
#define PASSES 15
#define MANY 32
#define OWNER 1 /* the guest that has every lane */

static gift_lane lanes[GIFT_LANES], kept[GIFT_LANES];
static uint32_t last;
static uint8_t key[GIFT_KEY_SIZE], block[GIFT_BLOCK_SIZE];
static uint32_t words[GIFT_WORDS];
static uint32_t code, made;

/* ---- the calls, each through a pointer, so that a function that does nothing can stand in its place */

static uint32_t no_open(gift_lane *l, size_t n, uint32_t last_served, uint32_t lane, uint16_t owner, uint32_t direction, uint32_t order, const uint8_t *k, size_t k_len,
                        const uint8_t *b, size_t b_len)
{
    (void)l, (void)n, (void)last_served, (void)lane, (void)owner, (void)direction, (void)order, (void)k, (void)k_len, (void)b, (void)b_len;
    return GIFT_DONE;
}

static gift_turns no_turn(gift_lane *l, size_t n, uint32_t last_served, uint32_t asked)
{
    (void)l, (void)n, (void)asked;
    return (gift_turns){GIFT_DONE, 0, last_served};
}

static uint32_t no_take(gift_lane *l, size_t n, uint32_t last_served, uint32_t lane, uint16_t owner, uint8_t *out, size_t out_len)
{
    (void)l, (void)n, (void)last_served, (void)lane, (void)owner, (void)out, (void)out_len;
    return GIFT_DONE;
}

static uint32_t no_close(gift_lane *l, size_t n, uint32_t last_served, uint32_t lane, uint16_t owner)
{
    (void)l, (void)n, (void)last_served, (void)lane, (void)owner;
    return GIFT_DONE;
}

static uint32_t no_block(const uint8_t *k, size_t k_len, uint8_t *b, size_t b_len)
{
    (void)k, (void)k_len, (void)b, (void)b_len;
    return GIFT_DONE;
}

static __typeof__(&gift_open_lane) volatile open_call;
static __typeof__(&gift_turn) volatile turn_call;
static __typeof__(&gift_take) volatile take_call;
static __typeof__(&gift_close) volatile close_call;
static __typeof__(&gift_plain_encrypt_by_key) volatile encrypt_call, decrypt_call;

static void real(void) { open_call = gift_open_lane, turn_call = gift_turn, take_call = gift_take, close_call = gift_close, encrypt_call = gift_plain_encrypt_by_key, decrypt_call = gift_plain_decrypt_by_key; }
static void unreal(void) { open_call = no_open, turn_call = no_turn, take_call = no_take, close_call = no_close, encrypt_call = decrypt_call = no_block; }

static __typeof__(&gift_close) volatile no_call = no_close;
static void nothing(void) { code = no_call(lanes, GIFT_LANES, last, 0, OWNER); }
static void by_words(void) { code = gift_encrypt_by_words(GIFT_ORDER_NUMBER, words, GIFT_WORDS, block, sizeof block); }
static void expand(void) { code = gift_expand(key, sizeof key, words, GIFT_WORDS); }
static void encrypt(void) { code = gift_encrypt_by_key(GIFT_ORDER_NUMBER, key, sizeof key, block, sizeof block); }
static void decrypt(void) { code = gift_decrypt_by_key(GIFT_ORDER_NUMBER, key, sizeof key, block, sizeof block); }
static void plain_encrypt(void) { code = encrypt_call(key, sizeof key, block, sizeof block); }
static void plain_decrypt(void) { code = decrypt_call(key, sizeof key, block, sizeof block); }

static void turns(uint32_t asked)
{
    gift_turns t = turn_call(lanes, GIFT_LANES, last, asked);
    code = t.code;
    made = t.made;
}

static void one_turn(void) { turns(1); }
static void many_turns(void) { turns(MANY); }
static void too_many_turns(void) { turns(GIFT_MOST_TURNS + 1); }
static void opening(void) { code = open_call(lanes, GIFT_LANES, last, GIFT_LANES - 1, OWNER, GIFT_ENCRYPT, GIFT_ORDER_NUMBER, key, sizeof key, block, sizeof block); }
static void taking(void) { code = take_call(lanes, GIFT_LANES, last, GIFT_LANES - 1, OWNER, block, sizeof block); }
static void closing(void) { code = close_call(lanes, GIFT_LANES, last, GIFT_LANES - 1, OWNER); }

/* ---- the records that they are made on */

static void expect(uint32_t is, uint32_t wanted, const char *of)
{
    if (is != wanted) {
        printf("speed/bench: %s gave %u and not %u\n", of, is, wanted);
        exit(1);
    }
}

/* The last n lanes run, and then as many turns are made as are asked for. */
static void keep(uint32_t n, uint32_t asked)
{
    memset(lanes, 0, sizeof lanes);
    last = GIFT_FRESH_LAST;
    for (uint32_t lane = GIFT_LANES - n; lane < GIFT_LANES; lane++) {
        code = gift_open_lane(lanes, GIFT_LANES, last, lane, OWNER, lane % 2, GIFT_ORDER_NUMBER, key, sizeof key, block, sizeof block);
        expect(code, GIFT_DONE, "gift_open_lane");
    }
    for (; asked != 0; asked--) {
        turns(1);
        expect(made, 1, "gift_turn");
    }
    memcpy(kept, lanes, sizeof lanes);
}

/* ---- time */

static uint64_t once(void (*call)(void))
{
    memcpy(lanes, kept, sizeof lanes);
    __builtin_ia32_mfence(); /* the copy is no part of the call */
    uint64_t t = now();
    call();
    return now() - t;
}

static double median(uint64_t *samples)
{
    for (size_t gap = SAMPLES / 2; gap != 0; gap /= 2)
        for (size_t i = gap; i < SAMPLES; i++) {
            uint64_t x = samples[i];
            size_t j = i;
            for (; j >= gap && samples[j - gap] > x; j -= gap)
                samples[j] = samples[j - gap];
            samples[j] = x;
        }
    return (double)samples[SAMPLES / 2];
}

struct times {
    double call, unit;
};

/* A call and the unit that it is told in, in turn, so that whatever else the machine does falls on both; and of all passes the one least disturbed. */
static struct times timed(void (*call)(void), void (*unit)(void))
{
    static uint64_t of_nothing[SAMPLES], of_unit[SAMPLES], of_call[SAMPLES];
    struct times best = {0, 0};
    for (int pass = 0; pass < PASSES; pass++) {
        for (size_t i = 0; i < SAMPLES; i++) {
            of_nothing[i] = once(nothing);
            of_unit[i] = once(unit);
            of_call[i] = once(call);
        }
        double none = median(of_nothing);
        struct times t = {median(of_call) - none, median(of_unit) - none};
        if (pass == 0 || t.call + t.unit < best.call + best.unit)
            best = t;
    }
    return best;
}

/* ---- stack */

/* Of a function that does nothing only the return address lies there, which is the call's own. What the loader does at the first call is not. */
static size_t stack_of(void (*call)(void))
{
    memcpy(lanes, kept, sizeof lanes);
    size_t of_call = depth(call);
    unreal();
    size_t of_nothing = depth(call);
    real();
    return of_call - of_nothing + 8;
}

/* ---- the table */

/* A row: so many turns in the call, so many units in the call that gives the unit, and the number that the call is to answer. */
static void row(const char *name, void (*call)(void), double turns_in, void (*unit)(void), double units_in, const char *of, uint32_t wanted)
{
    struct times t = timed(call, unit);
    expect(code, wanted, name);
    if (call == many_turns)
        expect(made, MANY, name);
    printf("%-24s %7.0f tsc %7.2f %s %7lu bytes of stack\n", name, t.call / turns_in, t.call / turns_in / (t.unit / units_in), of, (unsigned long)stack_of(call));
}

static void in_q(const char *name, void (*call)(void), double turns_in, uint32_t wanted) { row(name, call, turns_in, by_words, 8, "q", wanted); }

int main(void)
{
    real();
    for (uint32_t i = 0; i < GIFT_BLOCK_SIZE; i++) {
        key[i] = (uint8_t)(i * 17 + 3);
        block[i] = (uint8_t)(i * 29 + 5);
    }
    expand();
    keep(0, 0);
    struct times bare = timed(expand, by_words);
    printf("%d lanes; q, a quintuple round, %.0f tsc; e, an expansion, %.0f tsc\n", GIFT_LANES, bare.unit / 8, bare.call);
    keep(1, 0);
    in_q("turn(1), one lane runs", one_turn, 1, GIFT_DONE);
    keep(GIFT_LANES, 0);
    in_q("turn(1), all lanes run", one_turn, 1, GIFT_DONE);
    in_q("turn(32), each turn", many_turns, MANY, GIFT_DONE);
    keep(0, 0);
    row("open", opening, 1, expand, 1, "e", GIFT_DONE);
    keep(1, GIFT_TURNS_OF_A_LANE);
    in_q("take", taking, 1, GIFT_DONE);
    keep(1, 0);
    in_q("close", closing, 1, GIFT_DONE);
    in_q("a turn refused", too_many_turns, 1, GIFT_TOO_MANY_TURNS);
    in_q("an opening refused", opening, 1, GIFT_LANE_NOT_IDLE);
    row("plain, encrypting", plain_encrypt, 1, encrypt, 1, "k", GIFT_DONE);
    row("plain, decrypting", plain_decrypt, 1, decrypt, 1, "k", GIFT_DONE);
    return 0;
}
