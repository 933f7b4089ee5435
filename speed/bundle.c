/* What a bundle costs to write, to read whole and to look up in, beside the CMAC of as many bytes. `speed/bundle` builds and runs it.
 *
 * A time is read from the processor's time stamp counter: the least of many passes, taken by turns. */
#include <stdint.h>
#include <stdio.h>
#include <string.h>

#include "../include/gift_host.h"

#define PASSES 400

static uint8_t pool[GIFT_BUNDLE_MOST], bundle[GIFT_BUNDLE_MOST], key[GIFT_KEY_SIZE];
static gift_row rows[GIFT_BUNDLE_SETTINGS];

static uint64_t now(void)
{
    uint32_t low, high;
    __asm__ volatile("lfence; rdtsc; lfence" : "=a"(low), "=d"(high) : : "memory");
    return (uint64_t)high << 32 | low;
}

static void least(uint64_t *kept, uint64_t from, uint64_t to)
{
    if (to - from < *kept)
        *kept = to - from;
}

static int measured(uint32_t count, uint32_t most)
{
    size_t size = 0;
    for (uint32_t i = 0; i < count; i++) {
        rows[i] = (gift_row){2 * i, 2, 0, most - (i >= 232)};
        size += rows[i].length;
    }
    uint64_t mac = (uint64_t)-1, write = mac, open = mac, ask = mac, look = mac;
    uint32_t total = 0;
    for (unsigned pass = 0; pass < PASSES; pass++) {
        uint8_t tag[GIFT_TAG_SIZE];
        uint64_t a = now(), b, c, d, e, f;
        gift_written w = gift_bundle_write_2(key, sizeof key, (const uint32_t *)rows, 4 * count, pool, size, bundle, sizeof bundle);
        b = now();
        uint32_t tagged = gift_mac(key, sizeof key, bundle, w.total, tag, sizeof tag);
        c = now();
        gift_bundle seen = gift_bundle_open_2(key, sizeof key, bundle, w.total);
        d = now();
        gift_asked asked = gift_bundle_ask_2(key, sizeof key, bundle, w.total, 2 * count - 2);
        e = now();
        gift_told told = gift_bundle_look(seen, bundle, w.total, 2 * count - 2);
        f = now();
        if (w.code != 0 || tagged != 0 || seen.code != 0 || asked.told.state != GIFT_VALUE || told.state != GIFT_VALUE)
            return 0;
        total = w.total;
        least(&write, a, b);
        least(&mac, b, c);
        least(&open, c, d);
        least(&ask, d, e);
        least(&look, e, f);
    }
    printf("%8u %8u %12lu %12lu %12lu %12lu %10lu   %lu.%02lu %lu.%02lu\n", total, count, (unsigned long)mac, (unsigned long)write, (unsigned long)open, (unsigned long)ask,
           (unsigned long)look, (unsigned long)(write / mac), (unsigned long)(write * 100 / mac % 100), (unsigned long)(ask / mac), (unsigned long)(ask * 100 / mac % 100));
    return 1;
}

int main(void)
{
    for (size_t i = 0; i < sizeof pool; i++)
        pool[i] = (uint8_t)(i * 7 + i / 256);
    printf("%8s %8s %12s %12s %12s %12s %10s   %s\n", "bytes", "settings", "gift_mac", "write", "open", "ask", "look up", "write, ask of the CMAC");
    return !(measured(3, 8) && measured(32, 20) && measured(256, 20) && measured(256, 244));
}
