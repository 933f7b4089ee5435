/* What counter mode costs beside the cipher's own call on many blocks: a piece of 64 KiB, and pieces of one byte; and the stack of both.
 * `speed/streams` builds and runs it.
 *
 * A time is read from the processor's time stamp counter: the least and the median of many passes, the calls taken by turns. */
#include <stdint.h>
#include <stdio.h>
#include <string.h>

#include "../include/gift_host.h"
#include "measure.h"

#define MOST 65536
#define PASSES 401
#define BYTES 8192 /* in pieces of one byte, at most */

static uint8_t message[MOST], output[MOST], key[GIFT_KEY_SIZE], nonce[GIFT_NONCE_SIZE];
static gift_stream stream, kept;

static int blocks(size_t len)
{
    return gift_encrypt_blocks(GIFT_ORDER_NUMBER, key, sizeof key, message, len, output, len) == GIFT_DONE;
}

/* From its start, so that both have the key to expand. */
static int piece(size_t len)
{
    stream = gift_stream_start(key, sizeof key, nonce, sizeof nonce, 0).stream;
    return gift_stream_piece(&stream, message, len, output, len) == GIFT_DONE;
}

static int bytes(size_t len)
{
    stream = kept;
    for (size_t at = 0; at < len; at++)
        if (gift_stream_piece(&stream, message + at, 1, output + at, 1) != GIFT_DONE)
            return 0;
    return 1;
}

static void starting(void) { kept = gift_stream_start(key, sizeof key, nonce, sizeof nonce, 0).stream; }
static volatile uint32_t told;
static void feeding(void) { told = gift_stream_piece(&stream, message, 40, output, 40); }
static void feeding_much(void) { told = gift_stream_piece(&stream, message, MOST, output, MOST); }
static void below_a_group(void) { told = gift_encrypt_blocks(GIFT_ORDER_NUMBER, key, sizeof key, message, 1008, output, 1008); }
static void many(void) { told = gift_encrypt_blocks(GIFT_ORDER_NUMBER, key, sizeof key, message, MOST, output, MOST); }
static void many_back(void) { told = gift_decrypt_blocks(GIFT_ORDER_WORDS, key, sizeof key, message, MOST, output, MOST); }
static void nothing(void) {}

static uint64_t timed(int (*call)(size_t), size_t len, int *right)
{
    uint64_t t = now();
    *right &= call(len);
    return now() - t;
}

static void sort(uint64_t *samples)
{
    for (size_t i = 1; i < PASSES; i++)
        for (size_t j = i; j > 0 && samples[j - 1] > samples[j]; j--) {
            uint64_t x = samples[j];
            samples[j] = samples[j - 1];
            samples[j - 1] = x;
        }
}

int main(void)
{
    static uint64_t of_blocks[PASSES], of_piece[PASSES];
    int right = 1;

    for (size_t i = 0; i < MOST; i++)
        message[i] = (uint8_t)(i * 7 + i / 256);
    for (size_t i = 0; i < sizeof key; i++)
        key[i] = (uint8_t)(i * 17);
    starting();

    printf("%10s %22s %22s %10s %10s\n", "bytes", "gift_encrypt_blocks", "gift_stream_piece", "of them", "median");
    for (size_t len = 64; len <= MOST; len *= 4) {
        len = len == 16384 ? MOST : len;
        for (unsigned pass = 0; pass < PASSES; pass++) {
            of_blocks[pass] = timed(blocks, len, &right);
            of_piece[pass] = timed(piece, len, &right);
        }
        sort(of_blocks);
        sort(of_piece);
        printf("%10lu %12lu %9lu %12lu %9lu %10.3f %10.3f\n", (unsigned long)len, of_blocks[0], of_blocks[PASSES / 2], of_piece[0], of_piece[PASSES / 2],
               (double)of_piece[0] / (double)of_blocks[0], (double)of_piece[PASSES / 2] / (double)of_blocks[PASSES / 2]);
    }
    printf("\n%10s %22s\n", "bytes", "each, in pieces of 1");
    for (size_t len = 16; len <= BYTES; len *= 8) {
        for (unsigned pass = 0; pass < PASSES; pass++)
            of_piece[pass] = timed(bytes, len, &right);
        sort(of_piece);
        printf("%10lu %12lu %9lu\n", (unsigned long)len, of_piece[0] / len, of_piece[PASSES / 2] / len);
    }
    stream = kept;
    depth(nothing);
    const struct {
        const char *name;
        void (*call)(void);
    } stacks[] = {{"a start", starting}, {"a piece of 40 bytes", feeding}, {"a piece of 64 KiB", feeding_much}, {"many blocks, 1,008 bytes", below_a_group}, {"many blocks, 64 KiB", many}, {"decrypting, order 1", many_back}};
    printf("\nstack, bytes:\n");
    for (unsigned i = 0; i < sizeof stacks / sizeof *stacks; i++)
        printf("%26s %7lu\n", stacks[i].name, (unsigned long)(depth(stacks[i].call) - depth(nothing) + 8));
    return !right;
}
