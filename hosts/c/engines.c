/* Holds one engine to the other, for a host whose auditor asks it: the designers' three vectors, there and back by both. hosts/c/run builds and runs it. */
#include <stdint.h>
#include <stdio.h>
#include <string.h>

/* [readme: */
#include "../../include/gift_host.h"

/* One block by the fast engine and by the one that an auditor can read: whether they agree on the number and on every byte. */
static int engines_agree(int back, const uint8_t *key, const uint8_t *block, uint8_t *answer)
{
    uint8_t plain[GIFT_BLOCK_SIZE];
    memcpy(answer, block, sizeof plain);
    memcpy(plain, block, sizeof plain);
    uint32_t code = (back ? gift_decrypt_by_key : gift_encrypt_by_key)(GIFT_ORDER_NUMBER, key, GIFT_KEY_SIZE, answer, GIFT_BLOCK_SIZE);
    uint32_t held = (back ? gift_plain_decrypt_by_key : gift_plain_encrypt_by_key)(key, GIFT_KEY_SIZE, plain, GIFT_BLOCK_SIZE);
    return code == held && memcmp(answer, plain, sizeof plain) == 0;
}
/* :readme] */

static const uint8_t vectors[3][2][16] = { /* key, block */
    {{0}, {0}},
    {{0xfe, 0xdc, 0xba, 0x98, 0x76, 0x54, 0x32, 0x10, 0xfe, 0xdc, 0xba, 0x98, 0x76, 0x54, 0x32, 0x10},
     {0xfe, 0xdc, 0xba, 0x98, 0x76, 0x54, 0x32, 0x10, 0xfe, 0xdc, 0xba, 0x98, 0x76, 0x54, 0x32, 0x10}},
    {{0xd0, 0xf5, 0xc5, 0x9a, 0x77, 0x00, 0xd3, 0xe7, 0x99, 0x02, 0x8f, 0xa9, 0xf9, 0x0a, 0xd8, 0x37},
     {0xe3, 0x9c, 0x14, 0x1f, 0xa5, 0x7d, 0xba, 0x43, 0xf0, 0x8a, 0x85, 0xb6, 0xa9, 0x1f, 0x86, 0xc1}},
};

static void print(const char *name, const uint8_t *bytes)
{
    printf("%s ", name);
    for (unsigned i = 0; i < 16; i++)
        printf("%02x", bytes[i]);
    printf("\n");
}

int main(void)
{
    unsigned n, agreed = 0;
    if (gift_host_edition() != GIFT_HOST_EDITION) {
        printf("another edition of the library is linked: %u\n", gift_host_edition());
        return 1;
    }
    for (n = 0; n < 3; n++) {
        uint8_t there[GIFT_BLOCK_SIZE], back[GIFT_BLOCK_SIZE];
        agreed += engines_agree(0, vectors[n][0], vectors[n][1], there);
        agreed += engines_agree(1, vectors[n][0], there, back);
        agreed += memcmp(back, vectors[n][1], sizeof back) == 0;
        print("key      ", vectors[n][0]);
        print("block    ", vectors[n][1]);
        print("encrypted", there);
    }
    printf("%u vectors of the designers: both engines %s\n", n, agreed == 3 * n ? "agree, there and back" : "DISAGREE");
    return agreed != 3 * n;
}
