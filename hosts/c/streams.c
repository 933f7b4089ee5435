/* A setting of any length, encrypted in pieces as they come and decrypted in others, and what the last counter leaves. Built and run as host.c is. */
#include <stdint.h>
#include <stdio.h>
#include <string.h>

/* [readme: */
#include "../../include/gift_host.h"

/* A message in pieces of so many bytes, over a stream that the host keeps: 0, or the first refusal. Decrypting is the same. */
static uint32_t in_pieces(gift_stream *stream, size_t most, const uint8_t *input, uint8_t *output, size_t len)
{
    uint32_t code = GIFT_DONE;
    for (size_t at = 0; at < len && code == GIFT_DONE; at += most) {
        size_t piece = len - at < most ? len - at : most;
        code = gift_stream_piece(stream, input + at, piece, output + at, piece);
    }
    return code;
}
/* :readme] */

static const uint8_t key[GIFT_KEY_SIZE] = {
    0x00, 0x01, 0x02, 0x03, 0x04, 0x05, 0x06, 0x07, 0x08, 0x09, 0x0a, 0x0b, 0x0c, 0x0d, 0x0e, 0x0f,
};

/* The sender's, new for each message by this key. */
static const uint8_t nonce[GIFT_NONCE_SIZE] = {0xc0, 0xff, 0xee};

static const char setting[] = "rate=9600 parity=none name=north gate, second lamp";

static gift_stream started(uint32_t counter)
{
    return gift_stream_start(key, sizeof key, nonce, sizeof nonce, counter).stream;
}

int main(void)
{
    uint8_t sent[sizeof setting], opened[sizeof setting];
    gift_stream sender, receiver;
    int same;
    if (gift_host_edition() != GIFT_HOST_EDITION) {
        printf("another edition of the library is linked: %u\n", gift_host_edition());
        return 1;
    }

    sender = started(1);
    receiver = started(1);
    if (in_pieces(&sender, 7, (const uint8_t *)setting, sent, sizeof sent) != GIFT_DONE || in_pieces(&receiver, 33, sent, opened, sizeof opened) != GIFT_DONE)
        return 1;
    printf("sent   ");
    for (unsigned i = 0; i < sizeof sent; i++)
        printf("%02x", sent[i]);
    same = memcmp(opened, setting, sizeof setting) == 0 && memcmp(&sender, &receiver, sizeof sender) == 0;
    printf("\nopened %s\n%u bytes are unused, the next counter is %u\n", (const char *)opened, sender.unused, sender.counter);

    /* one block is left, and of it what was not used */
    sender = started(UINT32_MAX);
    printf("17 bytes at the last counter: %u\n", gift_stream_piece(&sender, sent, 17, opened, 17));
    printf("10 bytes: %u\n", gift_stream_piece(&sender, sent, 10, opened, 10));
    printf("6 more: %u\n", gift_stream_piece(&sender, sent, 6, opened, 6));
    printf("1 more: %u\n", gift_stream_piece(&sender, sent, 1, opened, 1));
    printf("%lu bytes in pieces of 7 and of 33: %s\n", (unsigned long)sizeof setting, same ? "the same bytes, the same stream" : "DIFFERENT");
    return !same;
}
