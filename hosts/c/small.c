/* A small terminal's host: settings of 8 bytes by GIFT-64, one in place and three from one buffer to another. Exit status 1 if a call is refused. */
#include <stdio.h>
#include <stdlib.h>
#include <string.h>

#include "../../include/gift_host.h"

static void show(const char *what, const uint8_t *bytes, size_t len)
{
    printf("%-10s", what);
    for (size_t i = 0; i < len; i++)
        printf("%02x", bytes[i]);
    printf("\n");
}

/* [readme: */
/* One setting, in place. */
static void open_setting(const uint8_t *key, uint8_t *setting)
{
    uint32_t code = gift64_decrypt_by_key(key, GIFT_KEY_SIZE, setting, GIFT64_BLOCK_SIZE);
    if (code != GIFT_DONE) {
        printf("gift64_decrypt_by_key: refusal %u\n", code);
        exit(1);
    }
}
/* :readme] */

int main(void)
{
    static const uint8_t key[GIFT_KEY_SIZE] = {0xbd, 0x91, 0x73, 0x1e, 0xb6, 0xbc, 0x27, 0x13, 0xa1, 0xf9, 0xf6, 0xff, 0xc7, 0x50, 0x44, 0xe7};
    uint8_t setting[GIFT64_BLOCK_SIZE] = {0xe3, 0x27, 0x28, 0x85, 0xfa, 0x94, 0xba, 0x8b};
    uint8_t plain[3 * GIFT64_BLOCK_SIZE], sealed[sizeof plain], again[sizeof plain];

    show("sealed", setting, sizeof setting);
    open_setting(key, setting);
    show("setting", setting, sizeof setting);

    for (size_t i = 0; i < sizeof plain; i++)
        plain[i] = (uint8_t)i;
    if (gift64_encrypt_blocks(key, sizeof key, plain, sizeof plain, sealed, sizeof sealed) != GIFT_DONE ||
        gift64_decrypt_blocks(key, sizeof key, sealed, sizeof sealed, again, sizeof again) != GIFT_DONE)
        return 1;
    show("three", plain, sizeof plain);
    show("sealed", sealed, sizeof sealed);
    printf("three settings of 8 bytes: %s\n", memcmp(plain, again, sizeof plain) == 0 ? "there and back" : "lost");
    return 0;
}
