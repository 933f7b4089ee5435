/* A list of settings on standard input, made a bundle on standard output. desk.h has the list's form; the bundle is the proved writer's.
 *
 * usage: make EDITION KEY PLAIN <settings.txt >out.bundle
 *   EDITION    1 or 2
 *   KEY        a file of 16 bytes
 *   PLAIN      where the same list goes, laid out as `show` prints it: ./gift make compares it with what gift_show, which is proved, prints of the bundle
 * Exit status: 0 the bundle is written; 2 something is wrong, which is told with its line, and nothing is written. */
#include "desk.h"

static uint8_t key[GIFT_KEY_SIZE], made[GIFT_BUNDLE_MOST];
static list settings;
static char plain[LIST_MOST + 8];

int main(int count, char **words)
{
    program = "make";
    uint32_t edition = count == 4 ? edition_of(words[1]) : 0;
    if (!edition) {
        fprintf(stderr, "usage: make EDITION KEY PLAIN <settings.txt >out.bundle; an edition is 1 or 2\n");
        return 2;
    }
    read_key(words[2], key);
    char *text = 0;
    size_t size = 0, room = 0;
    for (;;) {
        text = grown(text, size, &room, 1);
        long more = read_some(stdin, (uint8_t *)text + size, room - size);
        if (more < 0)
            fail("standard input", strerror(errno));
        if (!more)
            break;
        size += (size_t)more;
    }
    reading r;
    size_t wrong = read_list(text, size, edition, &settings, &r);
    if (wrong) {
        fprintf(stderr, "make: line %zu: %s; nothing is written\n", wrong, r.what);
        return 2;
    }
    gift_written written = write_list(edition, key, &settings, made);
    if (written.code != GIFT_DONE) {
        fprintf(stderr, "make: refusal %u: %s; nothing is written\n", written.code, gift_refusal_text(written.code));
        return 2;
    }
    size = put_plain(plain, text, size);
    FILE *file = fopen(words[3], "wb");
    if (!file || fwrite(plain, 1, size, file) != size || fclose(file))
        fail(words[3], strerror(errno));
    write_all(made, written.total);
    return 0;
}
