/* Two nodes and one bundle: a host of today writes settings of edition 2, and a node that still has edition 1 reads the same bytes. What it shows is right,
 * or it shows nothing.
 *
 *     tools/built library && cc hosts/c/settings.c target/staticlib/libgift_host.a
 *
 * builds it on x86-64 Linux; hosts/c/run, beside this file, with nothing but the kit. */
#include <stdint.h>
#include <stdio.h>

/* [readme: */
#include "../../include/gift_host.h"

static const uint8_t key[GIFT_KEY_SIZE] = {0, 1, 2, 3, 4, 5, 6, 7, 8, 9, 10, 11, 12, 13, 14, 15};

/* A fan that is on, a limit of 1,000, a greeting: the last is text, which edition 1 does not have, and no node must know it. */
static const gift_row rows[] = {{1, 0, 1, 1}, {7, 1, 1, 8}, {20, 2, 0, 5}};
static const uint8_t pool[] = {1, 0, 0, 0, 0, 0, 0, 3, 0xe8, 'h', 'e', 'l', 'l', 'o'};

static uint8_t bundle[GIFT_BUNDLE_MOST];

/* One setting, as a node shows it. */
static void show(gift_bundle seen, uint32_t size, uint32_t id)
{
    gift_told told = gift_bundle_look(seen, bundle, size, id);
    switch (told.state) {
    case GIFT_VALUE:
        printf(" %u = kind %u, %u bytes at %u;", id, told.kind, told.length, told.at);
        break;
    case GIFT_ABSENT: printf(" %u absent;", id); break;
    case GIFT_UNKNOWN: printf(" %u unknown;", id); break;
    default: printf(" %u refused;", id); break;
    }
}
/* :readme] */

static void node(const char *name, gift_bundle seen, uint32_t size)
{
    printf("%s: number %u;", name, seen.code);
    show(seen, size, 1);
    show(seen, size, 2);
    show(seen, size, 7);
    show(seen, size, 20);
    printf("\n");
}

static void nodes(const char *what, uint32_t size)
{
    printf("%s, %u bytes\n", what, size);
    node("  a node of edition 1", gift_bundle_open_1(key, sizeof key, bundle, size), size);
    node("  a node of edition 2", gift_bundle_open_2(key, sizeof key, bundle, size), size);
}

int main(void)
{
    gift_written written = gift_bundle_write_2(key, sizeof key, (const uint32_t *)rows, 12, pool, sizeof pool, bundle, sizeof bundle);
    nodes("a text that need not be known", written.total);
    for (uint32_t i = 0; i < written.total; i++)
        printf("%02x%s", bundle[i], i % 16 == 15 || i + 1 == written.total ? "\n" : " ");

    gift_row strict[] = {{1, 0, 1, 1}, {7, 1, 1, 8}, {20, 2, 1, 5}};
    written = gift_bundle_write_2(key, sizeof key, (const uint32_t *)strict, 12, pool, sizeof pool, bundle, sizeof bundle);
    nodes("a text that must be known", written.total);

    written = gift_bundle_write_1(key, sizeof key, (const uint32_t *)rows, 8, pool, 9, bundle, sizeof bundle);
    nodes("of edition 1, no text", written.total);

    bundle[written.total - 20] ^= 1;
    nodes("of edition 1, one bit changed", written.total);

    written = gift_bundle_write_1(key, sizeof key, (const uint32_t *)rows, 12, pool, sizeof pool, bundle, sizeof bundle);
    printf("a writer of edition 1 gives %u for the text, and a total of %u\n", written.code, written.total);
    return 0;
}
