/* What a block costs in each order, by round words, by a key and among many. `speed/orders` builds and runs it; with BEFORE defined it is built over a library of
 * edition 4, which has order 0 alone.
 *
 * A time is read from the processor's time stamp counter: the least of many passes, the orders by turns. */
#include <stdint.h>
#include <stdio.h>

#ifdef BEFORE
#define ORDERS 1
#define IN(order)
#define GIFT_HOST_H /* no header of that edition is at hand: what is called, as it had it */
#include <stddef.h>
#define GIFT_KEY_SIZE 16
#define GIFT_BLOCK_SIZE 16
#define GIFT_WORDS 80
uint32_t gift_expand(const uint8_t *, size_t, uint32_t *, size_t);
uint32_t gift_encrypt_by_key(const uint8_t *, size_t, uint8_t *, size_t);
uint32_t gift_decrypt_by_key(const uint8_t *, size_t, uint8_t *, size_t);
uint32_t gift_encrypt_by_words(const uint32_t *, size_t, uint8_t *, size_t);
uint32_t gift_decrypt_by_words(const uint32_t *, size_t, uint8_t *, size_t);
uint32_t gift_encrypt_blocks(const uint8_t *, size_t, const uint8_t *, size_t, uint8_t *, size_t);
uint32_t gift_decrypt_blocks(const uint8_t *, size_t, const uint8_t *, size_t, uint8_t *, size_t);
#else
#define ORDERS 2
#define IN(order) order,
#include "../include/gift_host.h"
#endif

#define MANY 65536
#define ONES 256 /* calls of one block in a pass */
#define PASSES 600

static uint8_t key[GIFT_KEY_SIZE], block[GIFT_BLOCK_SIZE], input[MANY], output[MANY];
static uint32_t words[GIFT_WORDS];
static uint32_t refused;

static uint64_t now(void)
{
    uint32_t low, high;
    __asm__ volatile("lfence; rdtsc; lfence" : "=a"(low), "=d"(high) : : "memory");
    return (uint64_t)high << 32 | low;
}

enum { BY_WORDS, BY_WORDS_BACK, BY_KEY, BY_KEY_BACK, BLOCKS, BLOCKS_BACK, KINDS };

static const char *const names[KINDS] = {"by words", "  undone", "by a key", "  undone", "64 KiB, each block", "  undone"};

static void call(unsigned kind, uint32_t order)
{
    (void)order;
    if (kind == BLOCKS)
        refused |= gift_encrypt_blocks(IN(order) key, sizeof key, input, MANY, output, MANY);
    else if (kind == BLOCKS_BACK)
        refused |= gift_decrypt_blocks(IN(order) key, sizeof key, input, MANY, output, MANY);
    else
        for (unsigned i = 0; i < ONES; i++)
            switch (kind) {
            case BY_WORDS: refused |= gift_encrypt_by_words(IN(order) words, GIFT_WORDS, block, sizeof block); break;
            case BY_WORDS_BACK: refused |= gift_decrypt_by_words(IN(order) words, GIFT_WORDS, block, sizeof block); break;
            case BY_KEY: refused |= gift_encrypt_by_key(IN(order) key, sizeof key, block, sizeof block); break;
            default: refused |= gift_decrypt_by_key(IN(order) key, sizeof key, block, sizeof block); break;
            }
}

int main(void)
{
    for (unsigned i = 0; i < sizeof key; i++)
        key[i] = (uint8_t)(17 * i + 3);
    for (unsigned i = 0; i < MANY; i++)
        input[i] = (uint8_t)(i * 7 + i / 256);
    refused = gift_expand(key, sizeof key, words, GIFT_WORDS);
    for (unsigned kind = 0; kind < KINDS; kind++) {
        uint64_t least[2] = {(uint64_t)-1, (uint64_t)-1};
        unsigned blocks = kind >= BLOCKS ? MANY / GIFT_BLOCK_SIZE : ONES;
        for (unsigned pass = 0; pass < (kind >= BLOCKS ? PASSES / 10 : PASSES); pass++)
            for (uint32_t order = 0; order < ORDERS; order++) {
                uint64_t t = now();
                call(kind, order);
                t = now() - t;
                least[order] = t < least[order] ? t : least[order];
            }
        printf("%-20s", names[kind]);
        for (uint32_t order = 0; order < ORDERS; order++)
            printf(" order %u: %5lu.%lu tsc", order, (unsigned long)(least[order] / blocks), (unsigned long)(least[order] * 10 / blocks % 10));
        printf("\n");
    }
    return refused != 0;
}
