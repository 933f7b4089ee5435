/* A hardware partner's host: it feeds round words of its own making. It holds them to the letters of the GIFT paper, V and U of each round, and makes words of
 * such letters; then a block by the words, and a lane of the bench whose record it fills itself, give the same. Exit status 1 if a call is refused or anything differs. */
#include <stdio.h>
#include <stdlib.h>
#include <string.h>

#include "../../include/gift_host.h"

static void must(const char *call, uint32_t code)
{
    if (code != GIFT_DONE) {
        printf("%s: refusal %u\n", call, code);
        exit(1);
    }
}

/* [readme: */
/* Whether the words that the hardware made are those of the paper: V and U of each round, in a row. */
static int are_the_papers(const uint32_t *words, const uint32_t *letters)
{
    uint32_t pairs[GIFT_WORDS];
    must("gift_pairs", gift_pairs(words, GIFT_WORDS, pairs, GIFT_WORDS));
    return memcmp(pairs, letters, sizeof pairs) == 0;
}
/* :readme] */

static void show(const char *what, const uint8_t *bytes)
{
    printf("%-22s", what);
    for (unsigned i = 0; i < GIFT_BLOCK_SIZE; i++)
        printf("%02x", bytes[i]);
    printf("\n");
}

int main(void)
{
    uint8_t key[GIFT_KEY_SIZE], block[GIFT_BLOCK_SIZE], by_words[GIFT_BLOCK_SIZE], by_lane[GIFT_BLOCK_SIZE], secret[GIFT_BLOCK_SIZE];
    uint32_t words[GIFT_WORDS], pairs[GIFT_WORDS], letters[GIFT_WORDS];
    gift_lane lanes[GIFT_LANES];
    gift_turns told;
    int same;

    /* a key's words in the paper's letters */
    for (unsigned i = 0; i < GIFT_KEY_SIZE; i++)
        key[i] = block[i] = (uint8_t)i;
    must("gift_expand", gift_expand(key, sizeof key, words, GIFT_WORDS));
    must("gift_pairs", gift_pairs(words, GIFT_WORDS, pairs, GIFT_WORDS));
    for (unsigned r = 0; r < 5; r++)
        printf("round %u: V %08x  U %08x    kept as %08x %08x\n", r + 1, pairs[2 * r], pairs[2 * r + 1], words[2 * r], words[2 * r + 1]);

    /* the partner's own letters, which are no key's, and its words for them */
    for (unsigned i = 0; i < GIFT_WORDS; i++)
        letters[i] = 0x01010101u * i;
    must("gift_words", gift_words(letters, GIFT_WORDS, words, GIFT_WORDS));
    printf("the partner's words are those of its letters: %s\n", are_the_papers(words, letters) ? "yes" : "no");
    words[8] ^= 1;
    printf("with one bit of word 8 wrong: %s\n", are_the_papers(words, letters) ? "yes" : "no");
    words[8] ^= 1;

    /* a block by the words, and the same by a lane that the host fills itself, in order 1 */
    memcpy(by_words, block, sizeof block);
    must("gift_encrypt_by_words", gift_encrypt_by_words(GIFT_ORDER_WORDS, words, GIFT_WORDS, by_words, sizeof by_words));
    show("by its words", by_words);
    memcpy(secret, by_words, sizeof secret);
    memset(lanes, 0, sizeof lanes);
    must("gift_open_lane", gift_open_lane(lanes, GIFT_LANES, GIFT_FRESH_LAST, 3, 1, GIFT_ENCRYPT, GIFT_ORDER_WORDS, key, sizeof key, block, sizeof block));
    memcpy(lanes[3].words, words, sizeof words);
    told = gift_turn(lanes, GIFT_LANES, GIFT_FRESH_LAST, GIFT_TURNS_OF_A_LANE);
    must("gift_turn", told.code);
    must("gift_take", gift_take(lanes, GIFT_LANES, told.last, 3, 1, by_lane, sizeof by_lane));
    show("by a lane with them", by_lane);
    must("gift_decrypt_by_words", gift_decrypt_by_words(GIFT_ORDER_WORDS, words, GIFT_WORDS, by_words, sizeof by_words));
    show("undone", by_words);
    same = are_the_papers(words, letters) && memcmp(secret, by_lane, sizeof secret) == 0 && memcmp(by_words, block, sizeof block) == 0;
    printf("a block by the partner's words and by a lane with them: %s\n", same ? "the same, there and back" : "different");
    return !same;
}
