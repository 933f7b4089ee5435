/* A metered host, to copy from. Sixteen settings, one for each guest, came as GIFT-128 blocks. It decrypts them between its guests' slices of work,
 * three turns at a time, so that no guest waits for more than three turns. A lane is opened in its guest's name, and is that guest's alone.
 *
 *     tools/built library && cc hosts/c/host.c target/staticlib/libgift_host.a
 *
 * builds it on x86-64 Linux; hosts/c/run, beside this file, with nothing but the kit. */
#include <stdint.h>
#include <stdio.h>
#include <stdlib.h>

#define GUESTS GIFT_LANES
#define TURNS 3

static void refused(const char *call, uint32_t code);
static void apply(uint32_t guest, const uint8_t *setting);

/* [readme: */
#include "../../include/gift_host.h"

static gift_lane lanes[GIFT_LANES];     /* the host's own records; all zero, they are idle */
static uint32_t last = GIFT_FRESH_LAST; /* the lane last served */

/* The number by which the bench knows a guest; 0 is nobody's. */
static uint16_t owner(uint32_t guest)
{
    return (uint16_t)(guest + 1);
}

static void decrypt_setting(uint32_t guest, const uint8_t *key, const uint8_t *block)
{
    uint32_t code = gift_open_lane(lanes, GIFT_LANES, last, guest, owner(guest), GIFT_DECRYPT,
                                   GIFT_ORDER_NUMBER, key, GIFT_KEY_SIZE, block, GIFT_BLOCK_SIZE);
    if (code != GIFT_DONE)
        refused("gift_open_lane", code);
}

/* Between two slices: a few turns, each five rounds in one lane, and the settings that are finished. */
static uint32_t between_slices(void)
{
    gift_turns turns = gift_turn(lanes, GIFT_LANES, last, TURNS);
    if (turns.code != GIFT_DONE)
        refused("gift_turn", turns.code);
    last = turns.last;
    for (uint32_t guest = 0; guest < GUESTS; guest++) {
        uint8_t setting[GIFT_BLOCK_SIZE];
        uint32_t code = gift_take(lanes, GIFT_LANES, last, guest, owner(guest), setting, sizeof setting);
        if (code == GIFT_DONE)
            apply(guest, setting);
        else if (code != GIFT_LANE_NOT_FINISHED)
            refused("gift_take", code);
    }
    return turns.made;
}
/* :readme] */

static const uint8_t key[GIFT_KEY_SIZE] = {
    0x00, 0x01, 0x02, 0x03, 0x04, 0x05, 0x06, 0x07, 0x08, 0x09, 0x0a, 0x0b, 0x0c, 0x0d, 0x0e, 0x0f,
};

static const uint8_t blocks[GUESTS][GIFT_BLOCK_SIZE] = {
    {0x8a, 0x0a, 0x67, 0x1f, 0x8c, 0x87, 0x38, 0x28, 0x1b, 0xfd, 0xe0, 0xaa, 0x0e, 0x51, 0x39, 0x68},
    {0x90, 0x1b, 0x8d, 0x87, 0xc6, 0xbf, 0x4a, 0xdc, 0x54, 0x01, 0x92, 0xa7, 0x52, 0xae, 0x39, 0x93},
    {0x9b, 0x1d, 0x80, 0xa4, 0xc5, 0x33, 0x7a, 0xe3, 0xab, 0x44, 0x66, 0x7a, 0x47, 0x2f, 0x94, 0xbf},
    {0x33, 0x22, 0x4a, 0x96, 0x23, 0xed, 0xbf, 0x79, 0xfa, 0xaa, 0x5c, 0xd3, 0x70, 0x7d, 0xa1, 0xeb},
    {0x28, 0xda, 0x83, 0x17, 0xc9, 0x72, 0x3d, 0x21, 0xaa, 0xb7, 0x7d, 0xad, 0x15, 0x80, 0xc3, 0x36},
    {0xe2, 0xa6, 0xb8, 0xaa, 0xd2, 0x3f, 0x19, 0xc3, 0x71, 0x0d, 0xc5, 0x9a, 0x26, 0xde, 0x57, 0x41},
    {0x68, 0x88, 0xdb, 0x3b, 0xe6, 0x5b, 0x7e, 0x2a, 0x25, 0x78, 0x3e, 0x42, 0x60, 0x50, 0xe9, 0x72},
    {0xc8, 0x41, 0x78, 0x37, 0x85, 0x77, 0xe7, 0x1c, 0x18, 0x73, 0xbc, 0xd6, 0x70, 0x15, 0x9f, 0x7b},
    {0xfb, 0xaa, 0x7b, 0xec, 0xda, 0xbc, 0xcc, 0x44, 0x7d, 0x00, 0x54, 0x68, 0x0e, 0x4d, 0xe0, 0xd0},
    {0xd9, 0xf8, 0x12, 0x20, 0xda, 0x34, 0xa9, 0x6d, 0x3f, 0xe0, 0xbe, 0x4f, 0xe7, 0xb6, 0x78, 0xaa},
    {0x87, 0x33, 0x60, 0x1d, 0x07, 0x47, 0x50, 0x54, 0xe4, 0x84, 0xc6, 0x9a, 0x75, 0x52, 0xfb, 0xa0},
    {0xb8, 0xc4, 0xdb, 0x69, 0x4b, 0x2a, 0x70, 0xc1, 0x68, 0x94, 0x36, 0xcd, 0x50, 0xe0, 0xbb, 0xd2},
    {0x00, 0x80, 0x3e, 0x49, 0x24, 0x57, 0x3c, 0x28, 0x30, 0xa2, 0x45, 0x85, 0xa4, 0xc0, 0x15, 0x24},
    {0xf8, 0x8b, 0x5c, 0xcc, 0x6a, 0x38, 0x4b, 0xd7, 0x25, 0x26, 0x4e, 0xad, 0x6c, 0x9f, 0x41, 0x81},
    {0x91, 0x9d, 0xd0, 0x27, 0x31, 0x74, 0x67, 0xc1, 0x62, 0x98, 0xff, 0xc3, 0xe5, 0x4a, 0xc0, 0xfc},
    {0xf8, 0x13, 0xef, 0x12, 0x66, 0x5c, 0xd6, 0xb7, 0x92, 0x8f, 0x61, 0x39, 0x3d, 0x50, 0x1f, 0x3b},
};

/* A call that was refused has changed nothing, but this host has no other plan. */
static void refused(const char *call, uint32_t code)
{
    printf("%s is refused, number %u\n", call, code);
    exit(1);
}

static uint32_t waiting; /* settings that are still wanted */

static void apply(uint32_t guest, const uint8_t *setting)
{
    printf("  guest %u has its setting: %.*s\n", guest, GIFT_BLOCK_SIZE, (const char *)setting);
    waiting--;
}

/* What the guests do is their own affair: here each counts its steps. */
static uint32_t steps[GUESTS];

static void work(uint32_t guest)
{
    for (uint32_t i = 0; i < 1000; i++)
        steps[guest]++;
}

/* A setting that is not wanted any more: its lane is closed, however far it has come. */
static void withdraw(uint32_t guest)
{
    uint32_t turns = lanes[guest].count;
    uint32_t code = gift_close(lanes, GIFT_LANES, last, guest, owner(guest));
    if (code != GIFT_DONE)
        refused("gift_close", code);
    printf("  guest %u's setting is withdrawn: its lane is closed after %u turns of %d\n", guest, turns, GIFT_TURNS_OF_A_LANE);
    waiting--;
}

/* A guest that asks for another's setting, and would have it closed: neither is done, and the buffer stays as it was. */
static void meddle(uint32_t guest, uint32_t other)
{
    uint8_t setting[GIFT_BLOCK_SIZE] = {0};
    uint32_t take = gift_take(lanes, GIFT_LANES, last, other, owner(guest), setting, sizeof setting);
    uint32_t close = gift_close(lanes, GIFT_LANES, last, other, owner(guest));
    if (take != GIFT_NOT_THE_OWNER || close != GIFT_NOT_THE_OWNER) {
        printf("guest %u is let into guest %u's lane, numbers %u and %u\n", guest, other, take, close);
        exit(1);
    }
    printf("  guest %u would take guest %u's setting, and close its lane: refused, numbers %u and %u\n", guest, other, take, close);
}

/* Every lane was taken from or closed: no byte of a record is left, and so none of a key or of a setting. */
static void look_for_keys(void)
{
    const uint8_t *bytes = (const uint8_t *)lanes;
    for (size_t i = 0; i < sizeof lanes; i++)
        if (bytes[i] != 0) {
            printf("byte %lu of the records is %02x\n", (unsigned long)i, bytes[i]);
            exit(1);
        }
    printf("the records are all zero again\n");
}

int main(void)
{
    uint32_t guest, slice, made = 0;

    if (gift_host_edition() != GIFT_HOST_EDITION) {
        printf("another edition of the library is linked: %u\n", gift_host_edition());
        return 1;
    }
    for (guest = 0; guest < GUESTS; guest++) {
        decrypt_setting(guest, key, blocks[guest]);
        waiting++;
    }
    for (slice = 1; waiting > 0; slice++) {
        guest = (slice - 1) % GUESTS;
        printf("slice %u: guest %u works\n", slice, guest);
        work(guest);
        made += between_slices();
        if (slice == 5)
            withdraw(2);
        if (slice == 6)
            meddle(5, 4);
    }
    for (guest = 0; guest < GUESTS; guest++)
        printf("guest %u worked %u steps\n", guest, steps[guest]);
    look_for_keys();
    printf("%u turns made between %u slices of work\n", made, slice - 1);
    return 0;
}
