/* What a block of GIFT-64 costs beside one of GIFT-128, by a key and in many blocks. `speed/small` builds and runs it.
 *
 * A time is read from the processor's time stamp counter: the least of many passes, the two taken by turns. */
#include <stdint.h>
#include <stdio.h>
#include <string.h>

#include "../include/gift_host.h"

#define PASSES 4000
#define BLOCKS 64 /* of one pass, each by the answer before it */
#define MANY 4096 /* blocks of one call */

typedef uint32_t one(const uint8_t *, size_t, uint8_t *, size_t);
typedef uint32_t many(const uint8_t *, size_t, const uint8_t *, size_t, uint8_t *, size_t);

static uint8_t key[16], input[MANY * 16], output[MANY * 16];

static uint64_t now(void)
{
    uint32_t low, high;
    __asm__ volatile("lfence; rdtsc; lfence" : "=a"(low), "=d"(high) : : "memory");
    return (uint64_t)high << 32 | low;
}

static void least(uint64_t *of, uint64_t from)
{
    uint64_t took = now() - from;
    if (took < *of)
        *of = took;
}

/* GIFT-128's calls in order 0, so that both members are called alike. */
static uint32_t encrypt_128(const uint8_t *k, size_t k_len, uint8_t *b, size_t b_len)
{
    return gift_encrypt_by_key(GIFT_ORDER_NUMBER, k, k_len, b, b_len);
}

static uint32_t decrypt_128(const uint8_t *k, size_t k_len, uint8_t *b, size_t b_len)
{
    return gift_decrypt_by_key(GIFT_ORDER_NUMBER, k, k_len, b, b_len);
}

static uint32_t encrypt_many_128(const uint8_t *k, size_t k_len, const uint8_t *i, size_t i_len, uint8_t *o, size_t o_len)
{
    return gift_encrypt_blocks(GIFT_ORDER_NUMBER, k, k_len, i, i_len, o, o_len);
}

static uint32_t decrypt_many_128(const uint8_t *k, size_t k_len, const uint8_t *i, size_t i_len, uint8_t *o, size_t o_len)
{
    return gift_decrypt_blocks(GIFT_ORDER_NUMBER, k, k_len, i, i_len, o, o_len);
}

static int by_key(one *f, size_t size, uint64_t *of)
{
    uint64_t from = now();
    for (unsigned n = 0; n < BLOCKS; n++)
        if (f(key, sizeof key, input, size) != GIFT_DONE)
            return 0;
    least(of, from);
    return 1;
}

static int in_many(many *f, size_t size, uint64_t *of)
{
    uint64_t from = now();
    if (f(key, sizeof key, input, MANY * size, output, MANY * size) != GIFT_DONE)
        return 0;
    least(of, from);
    return 1;
}

static void line(const char *name, uint64_t small, uint64_t large, unsigned blocks)
{
    printf("%-22s %8lu %8lu %8.2f\n", name, (unsigned long)(small / blocks), (unsigned long)(large / blocks), (double)small / (double)large);
}

int main(void)
{
    uint64_t t[8];
    memset(t, 0xff, sizeof t);
    for (unsigned i = 0; i < sizeof key; i++)
        key[i] = (uint8_t)(i * 17);
    for (unsigned pass = 0; pass < PASSES; pass++) {
        if (!by_key(gift64_encrypt_by_key, 8, &t[0]) || !by_key(encrypt_128, 16, &t[1]) || !by_key(gift64_decrypt_by_key, 8, &t[2]) ||
            !by_key(decrypt_128, 16, &t[3]))
            return 1;
        if (pass % 100 == 0 && (!in_many(gift64_encrypt_blocks, 8, &t[4]) || !in_many(encrypt_many_128, 16, &t[5]) ||
                                !in_many(gift64_decrypt_blocks, 8, &t[6]) || !in_many(decrypt_many_128, 16, &t[7])))
            return 1;
    }
    printf("%-22s %8s %8s %8s\n", "cycles for a block", "GIFT-64", "GIFT-128", "ratio");
    line("by a key, encrypting", t[0], t[1], BLOCKS);
    line("by a key, decrypting", t[2], t[3], BLOCKS);
    line("of many, encrypting", t[4], t[5], MANY);
    line("of many, decrypting", t[6], t[7], MANY);
    return 0;
}
