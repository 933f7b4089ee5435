/* A program outside the repository, over the installed library: a setting is encrypted by counter mode and tagged by CMAC, as docs/SECURITY.md recommends, and opened again if its tag is right.
 *
 *     ./gift install PREFIX
 *     export PKG_CONFIG_PATH=PREFIX/lib/pkgconfig
 *     cc outside.c $(pkg-config --cflags --libs gift_host)
 */
#include <gift_refusals.h>
#include <stdio.h>
#include <string.h>

/* One key for each purpose; a nonce never twice under one key. */
static const uint8_t secrecy[GIFT_KEY_SIZE] = "a key of 16 byte", honesty[GIFT_KEY_SIZE] = "another 16 bytes";
static const uint8_t nonce[GIFT_NONCE_SIZE] = "message no 1";

static uint32_t in_counter_mode(const uint8_t *input, uint8_t *output, size_t len)
{
    gift_stream_started started = gift_stream_start(secrecy, sizeof secrecy, nonce, sizeof nonce, 0);
    return started.code != GIFT_DONE ? started.code : gift_stream_piece(&started.stream, input, len, output, len);
}

static void open_setting(const uint8_t *sealed, size_t len, const uint8_t *tag)
{
    uint8_t setting[64];
    gift_mac_checked checked = gift_mac_check(honesty, sizeof honesty, sealed, len, tag, GIFT_TAG_SIZE);
    uint32_t code = checked.code;
    if (code == GIFT_DONE && !checked.yes) {
        puts("not ours, and not opened");
        return;
    }
    if (code == GIFT_DONE)
        code = in_counter_mode(sealed, setting, len);
    if (code == GIFT_DONE)
        printf("opened: %.*s\n", (int)len, (const char *)setting);
    else
        printf("refused with %u: %s\n", code, gift_refusal_text(code));
}

int main(void)
{
    static const char fare[] = "fare 1250";
    uint8_t sealed[sizeof fare - 1], tag[GIFT_TAG_SIZE];
    if (gift_host_edition() != GIFT_HOST_EDITION) {
        puts("another edition of the library is linked than the header says");
        return 1;
    }
    uint32_t code = in_counter_mode((const uint8_t *)fare, sealed, sizeof sealed);
    if (code == GIFT_DONE)
        code = gift_mac(honesty, sizeof honesty, sealed, sizeof sealed, tag, sizeof tag);
    if (code != GIFT_DONE) {
        printf("refused with %u: %s\n", code, gift_refusal_text(code));
        return 1;
    }
    open_setting(sealed, sizeof sealed, tag);
    sealed[5] ^= 1;
    open_setting(sealed, sizeof sealed, tag);
    return 0;
}
