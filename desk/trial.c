/* The desk's law, tried: `make` of what `show` prints of a bundle gives it again, byte for byte. Bundles of both editions are written at random by the library's writers, printed by desk.h as `show`
 * prints them, and made again by the functions that `make` has; also as a person might lay the same list out, with comments, blanks and lines that end as on other systems. Then texts with one byte changed: what
 * is read of them is a list or a line that is named, and what is a list comes back in the same way. The same texts on each run.
 *
 * usage: trial FOLDER
 *   FOLDER    where 200 of the bundles go, as N.EDITION.bundle and N.EDITION.key, for desk/run to try the programs on
 * Exit status: 1 if anything differs, 2 if the folder cannot be used. */
#include "desk.h"

enum { BUNDLES = 4000, KEPT = 200, CHANGED = 20000 };

static uint64_t seed = 26;

static uint64_t next(void)
{
    uint64_t z = seed += 0x9e3779b97f4a7c15;
    z = (z ^ z >> 30) * 0xbf58476d1ce4e5b9;
    z = (z ^ z >> 27) * 0x94d049bb133111eb;
    return z ^ z >> 31;
}

static uint32_t below(uint32_t n)
{
    return (uint32_t)(next() % n);
}

static uint8_t key[GIFT_KEY_SIZE], bundle[GIFT_BUNDLE_MOST], other[GIFT_BUNDLE_MOST];
static list from, changed;
static char shown[LIST_MOST], laid_out[4 * LIST_MOST];
static unsigned long differences, settings, bytes, kinds[3], must_knows, empty_texts, full_texts, faults, lists;

/* Whether `make` of what `show` prints of a bundle gives it again, byte for byte. */
static int comes_back(uint32_t edition, const uint8_t *key, const char *text, size_t size, const uint8_t *bundle, size_t bundle_size)
{
    static list again;
    static uint8_t made[GIFT_BUNDLE_MOST];
    reading r;
    if (read_list(text, size, edition, &again, &r))
        return 0;
    gift_written written = write_list(edition, key, &again, made);
    return written.code == GIFT_DONE && written.total == bundle_size && memcmp(made, bundle, bundle_size) == 0;
}

/* Whether what `show` prints of a bundle is a list that was read, but for how that is laid out. */
static int says_the_same(const char *text, size_t size, gift_bundle seen, const uint8_t *bundle)
{
    static char plain[LIST_MOST + 8], shown[LIST_MOST];
    size_t length = put_list(shown, seen, bundle), head = 0;
    while (shown[head++] != '\n')
        ;
    return put_plain(plain, text, size) == length - head && memcmp(plain, shown + head, length - head) == 0;
}

static void differs(const char *what)
{
    if (differences++ < 10)
        printf("%s\n", what);
}

/* A number of one of many sizes, and the ends. */
static uint64_t some_number(void)
{
    uint32_t smaller = below(64);
    return below(8) == 0 ? UINT64_MAX : next() >> smaller;
}

static void some_setting(uint32_t edition, uint32_t id)
{
    if (from.count == GIFT_BUNDLE_SETTINGS)
        return;
    uint32_t kind = below(edition == 1 ? 2 : 3), length = kind == 0 ? 1 : 8, must_know = below(2);
    uint64_t number = kind == 0 ? below(2) : some_number();
    uint8_t *body = from.pool + from.bytes;
    if (kind == 2) {
        uint32_t form = below(4);
        length = below(8) == 0 ? 255 : below(5) == 0 ? 0 : below(40);
        for (uint32_t i = 0; i < length; i++)
            body[i] = (uint8_t)(form == 0 ? below(256) : form == 1 ? (uint32_t)"\"\\x# \n"[below(6)] : form == 2 ? 255 - i : 32 + below(95));
        empty_texts += length == 0;
        full_texts += length == 255;
    } else
        for (uint32_t i = 0; i < length; i++)
            body[i] = (uint8_t)(number >> 8 * (length - 1 - i));
    if (24 + 12 * (from.count + 1) + from.bytes + length > GIFT_BUNDLE_MOST)
        return;
    kinds[kind]++;
    must_knows += must_know;
    from.rows[from.count++] = (gift_row){id, kind, must_know, length};
    from.bytes += length;
}

static void some_list(uint32_t edition)
{
    uint32_t count = below(20) == 0 ? GIFT_BUNDLE_SETTINGS : below(12), id = below(3) == 0 ? 0 : below(UINT32_MAX);
    from.count = from.bytes = 0;
    for (uint32_t i = 0; i < count; i++) {
        some_setting(edition, id);
        uint32_t step = 1 + (below(2) ? 0 : below(1000000));
        if (id > UINT32_MAX - step) {
            if (id != UINT32_MAX)
                some_setting(edition, UINT32_MAX);
            return;
        }
        id += step;
    }
}

/* The same list as a person might lay it out: blanks, comments, empty lines, lines that end in \r\n. */
static size_t lay_out(const char *text, size_t size, char *to)
{
    char *start = to;
    int quoted = 0;
    for (size_t i = 0; i < size; i++) {
        if (text[i] == '"')
            quoted = !quoted;
        if (text[i] == ' ' && !quoted && below(3) == 0)
            to += sprintf(to, " \t ");
        else if (text[i] == '\n') {
            const char *comment = below(3) ? "" : " # a \"comment\" must-know", *end = below(4) ? "" : "\r", *more = below(5) ? "" : "\n   \n# 7 flag 2";
            to += sprintf(to, "%s%s%s\n", comment, end, more);
        } else
            *to++ = text[i];
    }
    return (size_t)(to - start);
}

static void keep(const char *folder, int number, uint32_t edition, const char *what, const void *from_here, size_t size)
{
    char name[1000];
    snprintf(name, sizeof name, "%s/%d.%u.%s", folder, number, edition, what);
    FILE *file = fopen(name, "wb");
    if (!file || fwrite(from_here, 1, size, file) != size || fclose(file))
        fail(name, strerror(errno));
}

static void one_bundle(const char *folder, int number)
{
    uint32_t edition = 1 + below(2);
    for (size_t i = 0; i < sizeof key; i++)
        key[i] = (uint8_t)next();
    some_list(edition);
    gift_written written = write_list(edition, key, &from, bundle);
    if (written.code != GIFT_DONE) {
        differs("a list was refused");
        return;
    }
    settings += from.count;
    bytes += written.total;
    if (number < KEPT) {
        keep(folder, number, edition, "bundle", bundle, written.total);
        keep(folder, number, edition, "key", key, sizeof key);
    }
    for (uint32_t reader = edition; reader <= 2; reader++) {
        size_t size = put_list(shown, open_as(reader, key, bundle, written.total), bundle);
        if (!comes_back(edition, key, shown, size, bundle, written.total))
            differs("what was shown did not give the bundle again");
        size_t laid = lay_out(shown, size, laid_out);
        if (!comes_back(edition, key, laid_out, laid, bundle, written.total))
            differs("the same list, laid out otherwise, did not give the bundle");
        if (!says_the_same(laid_out, laid, open_as(edition, key, bundle, written.total), bundle))
            differs("the bundle does not say what the list laid out otherwise says");
    }
}

/* One byte of a text changed, put in or left out. */
static void one_change(void)
{
    static const char alphabet[] = "0123456789 \"\\x#\n\rflagnumbertextmust-know\0\377";
    reading r;
    if (from.count > 12 || below(200) == 0) {
        some_list(2);
        if (from.count > 12)
            from.count = from.bytes = 0;
    }
    gift_written written = write_list(2, key, &from, bundle);
    size_t size = put_list(shown, open_as(2, key, bundle, written.total), bundle), at = below((uint32_t)size), way = below(3), lines = 1;
    char put_in = alphabet[below(sizeof alphabet)];
    memcpy(laid_out, shown, at);
    size_t to = at;
    if (way != 2)
        laid_out[to++] = put_in;
    memcpy(laid_out + to, shown + at + (way != 1), size - at - (way != 1));
    to += size - at - (way != 1);
    for (size_t i = 0; i < to; i++)
        lines += laid_out[i] == '\n';
    size_t wrong = read_list(laid_out, to, 2, &changed, &r);
    if (wrong) {
        faults++;
        if (wrong > lines || !r.what[0])
            differs("a line was named that is none, or nothing was said of it");
        return;
    }
    lists++;
    written = write_list(2, key, &changed, other);
    if (written.code != GIFT_DONE)
        differs("a list that was read was refused");
    else if (!comes_back(2, key, shown, put_list(shown, open_as(2, key, other, written.total), other), other, written.total))
        differs("a list that was read did not come back");
    else if (!says_the_same(laid_out, to, open_as(2, key, other, written.total), other))
        differs("the bundle does not say what the list that was read says");
}

int main(int count, char **words)
{
    program = "trial";
    if (count != 2) {
        fprintf(stderr, "usage: trial FOLDER\n");
        return 2;
    }
    for (int i = 0; i < BUNDLES; i++)
        one_bundle(words[1], i);
    for (int i = 0; i < CHANGED; i++)
        one_change();
    printf("%d bundles, %lu bytes, %lu settings: %lu flags, %lu numbers, %lu texts (%lu empty, %lu of 255 bytes), %lu that must be known\n", BUNDLES, bytes, settings, kinds[0], kinds[1], kinds[2], empty_texts,
           full_texts, must_knows);
    printf("%d texts with a byte changed: %lu lines named, %lu lists\n", CHANGED, faults, lists);
    printf("%d bundles made again from what is shown of them, %lu differences\n", BUNDLES, differences);
    return differences != 0;
}
