/* What a tag costs beside the cipher's own calls, block after block. `speed/mac` builds and runs it.
 *
 * A time is read from the processor's time stamp counter: the least of many passes, the two taken by turns. */
#include <stdint.h>
#include <stdio.h>
#include <string.h>

#include "../include/gift_host.h"
#include "measure.h"

#define MOST 65536
#define PASSES 400

static uint8_t message[MOST], key[GIFT_KEY_SIZE];

/* the chained block calls: the cipher's own time, block after block */
static uint32_t chained(size_t len, uint8_t *block)
{
    uint32_t words[GIFT_WORDS];
    uint32_t code = gift_expand(key, sizeof key, words, GIFT_WORDS);
    memset(block, 0, GIFT_BLOCK_SIZE);
    for (size_t at = 0; at < len; at += GIFT_BLOCK_SIZE) {
        for (unsigned i = 0; i < GIFT_BLOCK_SIZE; i++)
            block[i] ^= message[at + i];
        code |= gift_encrypt_by_words(GIFT_ORDER_NUMBER, words, GIFT_WORDS, block, GIFT_BLOCK_SIZE);
    }
    return code;
}

int main(void)
{
    static const size_t lengths[] = {16, 64, 256, 1024, 4096, 65536};
    uint8_t tag[GIFT_TAG_SIZE], again[GIFT_TAG_SIZE], block[GIFT_BLOCK_SIZE];

    for (size_t i = 0; i < MOST; i++)
        message[i] = (uint8_t)(i * 7 + i / 256);
    for (size_t i = 0; i < sizeof key; i++)
        key[i] = (uint8_t)(i * 17);
    printf("%10s %14s %14s %14s %8s %8s\n", "bytes", "block calls", "gift_mac", "64-byte pieces", "of them", "pieces");
    for (unsigned n = 0; n < sizeof lengths / sizeof *lengths; n++) {
        uint64_t blocks = (uint64_t)-1, whole = blocks, pieces = blocks;
        for (unsigned pass = 0; pass < PASSES; pass++) {
            gift_mac_state state;
            uint64_t a = now(), b, c, d;
            chained(lengths[n], block);
            b = now();
            if (gift_mac(key, sizeof key, message, lengths[n], tag, sizeof tag) != GIFT_DONE)
                return 1;
            c = now();
            state = gift_mac_start(key, sizeof key).state;
            for (size_t at = 0; at < lengths[n]; at += 64)
                state = gift_mac_piece(state, message + at, lengths[n] - at < 64 ? lengths[n] - at : 64).state;
            if (gift_mac_tag(state, again, sizeof again) != GIFT_DONE || memcmp(tag, again, sizeof tag) != 0)
                return 1;
            d = now();
            blocks = b - a < blocks ? b - a : blocks;
            whole = c - b < whole ? c - b : whole;
            pieces = d - c < pieces ? d - c : pieces;
        }
        printf("%10lu %14lu %14lu %14lu %8lu.%02lu %5lu.%02lu\n", (unsigned long)lengths[n], (unsigned long)blocks, (unsigned long)whole, (unsigned long)pieces,
               (unsigned long)(whole / blocks), (unsigned long)(whole * 100 / blocks % 100), (unsigned long)(pieces / blocks),
               (unsigned long)(pieces * 100 / blocks % 100));
    }
    return 0;
}
