/* Whether a branch or an address of the library depends on a secret: under valgrind's memcheck every key and block byte is marked as having no value before it
 * is lent, so that memcheck tells of each jump and each address that is made of one. tools/secrets builds and runs it; no part of the gate. With PLANTED
 * defined it does what it looks for, once each, to show that it is told; with PLAIN it calls the plain engine, whose table is looked up by nibbles of the block. */
#include <stdio.h>
#include <string.h>
#include <valgrind/memcheck.h>
#include "../../include/gift_host.h"

enum { LONG = (64 + 8 + 5) * GIFT_BLOCK_SIZE }; /* a group of sixty-four blocks, one of eight, and some more */

static void secret(void *bytes, size_t n)
{
    VALGRIND_MAKE_MEM_UNDEFINED(bytes, n);
}

static void known(void *bytes, size_t n)
{
    VALGRIND_MAKE_MEM_DEFINED(bytes, n);
}

static int wrong; /* a call that was to be done and was refused */

static void done(const char *call, uint32_t code)
{
    if (code != GIFT_DONE) {
        printf("%s gave %u\n", call, code);
        wrong = 1;
    }
}

#ifdef PLANTED
static volatile uint8_t table[256];

static void planted(const uint8_t *key)
{
    volatile uint8_t sink;
    sink = table[key[0]]; /* an address */
    if (key[1] == 7)      /* a branch */
        sink = 1;
    (void)sink;
}
#endif

static uint8_t key[GIFT_KEY_SIZE] = {1, 2, 3}, block[GIFT_BLOCK_SIZE] = {4, 5, 6}, input[LONG] = {7, 8}, output[LONG], tag[GIFT_TAG_SIZE];
static uint32_t words[GIFT_WORDS];

static void blocks(uint32_t order)
{
    done("gift_encrypt_by_key", gift_encrypt_by_key(order, key, sizeof key, block, sizeof block));
    done("gift_decrypt_by_key", gift_decrypt_by_key(order, key, sizeof key, block, sizeof block));
    done("gift_expand", gift_expand(key, sizeof key, words, GIFT_WORDS));
    done("gift_encrypt_by_words", gift_encrypt_by_words(order, words, GIFT_WORDS, block, sizeof block));
    done("gift_decrypt_by_words", gift_decrypt_by_words(order, words, GIFT_WORDS, block, sizeof block));
    done("gift_encrypt_blocks", gift_encrypt_blocks(order, key, sizeof key, input, sizeof input, output, sizeof output));
    done("gift_decrypt_blocks", gift_decrypt_blocks(order, key, sizeof key, input, sizeof input, output, sizeof output));
    done("gift_encrypt_blocks_by_words", gift_encrypt_blocks_by_words(order, words, GIFT_WORDS, input, sizeof input, output, sizeof output));
    done("gift_decrypt_blocks_by_words", gift_decrypt_blocks_by_words(order, words, GIFT_WORDS, input, sizeof input, output, sizeof output));
}

static void small_blocks(void)
{
    done("gift64_encrypt_by_key", gift64_encrypt_by_key(key, sizeof key, block, GIFT64_BLOCK_SIZE));
    done("gift64_decrypt_by_key", gift64_decrypt_by_key(key, sizeof key, block, GIFT64_BLOCK_SIZE));
    done("gift64_encrypt_blocks", gift64_encrypt_blocks(key, sizeof key, input, sizeof input, output, sizeof output));
    done("gift64_decrypt_blocks", gift64_decrypt_blocks(key, sizeof key, input, sizeof input, output, sizeof output));
}

static void partner(void)
{
    uint32_t pairs[GIFT_WORDS];
    done("gift_pairs", gift_pairs(words, GIFT_WORDS, pairs, GIFT_WORDS));
    done("gift_words", gift_words(pairs, GIFT_WORDS, words, GIFT_WORDS));
}

/* One lane encrypts in order 0, the other decrypts in order 1. */
static void bench(void)
{
    static gift_lane lanes[GIFT_LANES];
    uint32_t last = GIFT_FRESH_LAST;
    for (uint32_t lane = 0; lane < 2; lane++)
        done("gift_open_lane", gift_open_lane(lanes, GIFT_LANES, last, lane, 1, lane, lane, key, sizeof key, block, sizeof block));
    for (int i = 0; i < 16; i++) {
        gift_turns turns = gift_turn(lanes, GIFT_LANES, last, 1);
        done("gift_turn", turns.code);
        last = turns.last;
    }
    done("gift_take", gift_take(lanes, GIFT_LANES, last, 0, 1, block, sizeof block));
    done("gift_close", gift_close(lanes, GIFT_LANES, last, 1, 1));
}

static void macs(void)
{
    done("gift_mac", gift_mac(key, sizeof key, input, sizeof input - 3, tag, sizeof tag));
    gift_mac_checked checked = gift_mac_check(key, sizeof key, input, sizeof input - 3, tag, sizeof tag);
    done("gift_mac_check", checked.code);
    known(&checked.yes, sizeof checked.yes); /* the answer is told to everyone */
    if (checked.yes != 1)
        wrong = 1;
    gift_mac_told told = gift_mac_start(key, sizeof key);
    done("gift_mac_start", told.code);
    told = gift_mac_piece(told.state, input, 21);
    done("gift_mac_piece", told.code);
    done("gift_mac_tag", gift_mac_tag(told.state, tag, sizeof tag));
}

static void streams(void)
{
    gift_stream_started started = gift_stream_start(key, sizeof key, (const uint8_t *)"twelve bytes", GIFT_NONCE_SIZE, 0);
    done("gift_stream_start", started.code);
    done("gift_stream_piece", gift_stream_piece(&started.stream, input, 21, output, 21));
    done("gift_stream_piece", gift_stream_piece(&started.stream, input, sizeof input, output, sizeof output));
}

/* The settings themselves are no secret here, the key is: a reader's answer shows the layout, and whether the tag was right (so readers are left out). */
static void bundle(void)
{
    static const uint32_t rows[] = {1, 0, 1, 1, 20, 2, 0, 5};
    uint8_t out[100];
    gift_written written = gift_bundle_write_2(key, sizeof key, rows, 8, (const uint8_t *)"\1hello", 6, out, sizeof out);
    done("gift_bundle_write_2", written.code);
}

int main(void)
{
    secret(key, sizeof key);
    secret(block, sizeof block);
    secret(input, sizeof input);
    /* what a call only writes needs no value before it */
    secret(output, sizeof output);
    secret(tag, sizeof tag);
    secret(words, sizeof words);
    for (uint32_t order = GIFT_ORDER_NUMBER; order <= GIFT_ORDER_WORDS; order++)
        blocks(order);
    partner();
    small_blocks();
    bench();
    macs();
    streams();
    bundle();
#ifdef PLANTED
    planted(key);
#endif
#ifdef PLAIN
    done("gift_plain_encrypt_by_key", gift_plain_encrypt_by_key(key, sizeof key, block, sizeof block));
    done("gift_plain_decrypt_by_key", gift_plain_decrypt_by_key(key, sizeof key, block, sizeof block));
#endif
    puts(wrong ? "a call was refused" : "all calls were done");
    return wrong;
}
