/* What a call leaves of a key's round words on the stack below its caller's frame, where they stay until something else is written there: the stack is painted, a call is
 * made, and the round words are looked for in what it left. tools/secrets builds and runs it; docs/SECURITY.md tells what it found. No part of the gate. */
#include <stdio.h>
#include <string.h>
#include "../../include/gift_host.h"

enum { DEEP = 40 * 1024 };

static uint8_t key[GIFT_KEY_SIZE] = {0x9e, 0x37, 0x79, 0xb9, 0x7f, 0x4a, 0x7c, 0x15, 0xf3, 0x9c, 0xc0, 0x60, 0x5c, 0xed, 0xc8, 0x34};
static uint8_t block[GIFT_BLOCK_SIZE], tag[GIFT_TAG_SIZE];
static uint32_t words[GIFT_WORDS];
static gift_lane lanes[GIFT_LANES];
static uint32_t last = GIFT_FRESH_LAST;
static gift_stream stream;
static gift_mac_state state;
static volatile uint32_t told;

/* The stack below this frame, as deep as any call goes. */
__attribute__((noinline)) static void paint(void)
{
    volatile uint8_t room[DEEP];
    for (size_t i = 0; i < sizeof room; i++)
        room[i] = 0xa5;
}

/* How many of the round words lie there, anywhere. What is read has no value for C; it is what the machine has. */
__attribute__((noinline)) static unsigned found(void)
{
    volatile uint8_t room[DEEP];
    unsigned n = 0;
    for (unsigned w = 0; w < GIFT_WORDS; w++)
        for (size_t i = 0; i + 4 <= sizeof room; i += 4) {
            uint32_t x = room[i] | (uint32_t)room[i + 1] << 8 | (uint32_t)room[i + 2] << 16 | (uint32_t)room[i + 3] << 24;
            if (x == words[w]) {
                n++;
                break;
            }
        }
    return n;
}

static void by_key(void) { told = gift_encrypt_by_key(GIFT_ORDER_NUMBER, key, sizeof key, block, sizeof block); }
static void by_words(void) { told = gift_encrypt_by_words(GIFT_ORDER_NUMBER, words, GIFT_WORDS, block, sizeof block); }
static void open_lane(void) { told = gift_open_lane(lanes, GIFT_LANES, last, 0, 1, GIFT_ENCRYPT, GIFT_ORDER_NUMBER, key, sizeof key, block, sizeof block); }
static void turn(void) { last = gift_turn(lanes, GIFT_LANES, last, 8).last; }
static void take(void) { told = gift_take(lanes, GIFT_LANES, last, 0, 1, block, sizeof block); }
static void start(void) { stream = gift_stream_start(key, sizeof key, tag, GIFT_NONCE_SIZE, 0).stream; }
static void piece(void) { told = gift_stream_piece(&stream, block, sizeof block, tag, sizeof tag); }
static void mac(void) { told = gift_mac(key, sizeof key, block, sizeof block, tag, sizeof tag); }
static void mac_start(void) { state = gift_mac_start(key, sizeof key).state; }
static void mac_piece(void) { state = gift_mac_piece(state, block, sizeof block).state; }

int main(void)
{
    static const struct {
        const char *name;
        void (*call)(void);
    } calls[] = {{"nothing", 0},           {"gift_encrypt_by_key", by_key},    {"gift_encrypt_by_words", by_words}, {"gift_open_lane", open_lane},
                 {"gift_turn", turn},      {"gift_take", take},                {"gift_stream_start", start},        {"gift_stream_piece", piece},
                 {"gift_mac", mac},        {"gift_mac_start", mac_start},      {"gift_mac_piece", mac_piece}};
    told = gift_expand(key, sizeof key, words, GIFT_WORDS);
    for (size_t i = 0; i < sizeof calls / sizeof *calls; i++) {
        paint();
        if (calls[i].call)
            calls[i].call();
        printf("after %-22s %2u of the 80 round words lie below the frame\n", calls[i].name, found());
    }
    return 0;
}
