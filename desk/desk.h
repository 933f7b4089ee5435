/* What the desk's programs share: how they fail, how they read a file, and the list of settings as text, which is read and printed here and nowhere else in C.
 *
 * A line of the list is a setting: its id, its kind, its value, and must-know if every node must know it.
 *
 *     17 number 1250
 *     18 flag 1 must-know
 *     19 text "Pier 4"       # from here to the end of the line is a comment
 *
 * The kind and the value are what ./gift differ prints of an answer (crates/differ_text/specs/Rendered.antt, side_text): a text stands in quotation marks, and there a byte outside
 * printable ASCII, a " and a \ are \x and two hex digits. Bundles are opened, written and compared by the proved library alone. */
#ifndef DESK_H
#define DESK_H

#include <errno.h>
#include <stdio.h>
#include <stdlib.h>
#include <string.h>
#include "../include/gift_refusals.h"

/* ---- how a program fails: one line on standard error that names the file, and status 2 */

static const char *program = "desk";

static inline _Noreturn void fail(const char *name, const char *what)
{
    fprintf(stderr, "%s: %s: %s\n", program, name, what);
    exit(2);
}

static inline void *need(void *memory)
{
    if (!memory)
        fail("memory", "there is not enough");
    return memory;
}

/* Room for one more of `count` things. */
static inline void *grown(void *old, size_t count, size_t *room, size_t size)
{
    if (count < *room)
        return old;
    *room = *room ? 2 * *room : 64;
    return need(realloc(old, *room * size));
}

/* ---- files */

/* Reads at most `most` bytes of a file; how many, or -1 and why in errno. */
static inline long read_some(FILE *file, uint8_t *to, size_t most)
{
    size_t size = fread(to, 1, most, file);
    return ferror(file) ? -1 : (long)size;
}

static inline long read_file(const char *path, uint8_t *to, size_t most)
{
    FILE *file = fopen(path, "rb");
    if (!file)
        return -1;
    long size = read_some(file, to, most);
    int why = errno;
    fclose(file);
    errno = why;
    return size;
}

static inline void read_key(const char *path, uint8_t *key)
{
    uint8_t room[GIFT_KEY_SIZE + 1];
    long size = read_file(path, room, sizeof room);
    if (size < 0)
        fail(path, strerror(errno));
    if (size != GIFT_KEY_SIZE) {
        char what[64];
        snprintf(what, sizeof what, size > GIFT_KEY_SIZE ? "a key has 16 bytes, and this file has more" : "a key has 16 bytes, and this file has %ld", size);
        fail(path, what);
    }
    memcpy(key, room, GIFT_KEY_SIZE);
}

static inline void write_all(const void *bytes, size_t size)
{
    if (fwrite(bytes, 1, size, stdout) != size || fflush(stdout))
        fail("standard output", strerror(errno));
}

/* The edition that a word names, or 0. */
static inline uint32_t edition_of(const char *word)
{
    return strcmp(word, "1") == 0 ? 1 : strcmp(word, "2") == 0 ? 2 : 0;
}

static inline gift_bundle open_as(uint32_t reader, const uint8_t *key, const uint8_t *bundle, size_t size)
{
    return (reader == 1 ? gift_bundle_open_1 : gift_bundle_open_2)(key, GIFT_KEY_SIZE, bundle, size);
}

/* ---- printing */

enum { ANSWER_MOST = 16 + 4 * 255 }; /* an answer's longest text: every byte as \xNN */

/* A byte of a text. */
static inline size_t put_byte(char *to, uint8_t b)
{
    return (size_t)sprintf(to, b < 32 || b > 126 || b == '"' || b == '\\' ? "\\x%02x" : "%c", b);
}

/* An answer, as ./gift differ prints it; how many characters. */
static inline size_t put_answer(char *to, gift_told told, const uint8_t *bundle)
{
    const uint8_t *body = bundle + told.at;
    char *start = to;
    if (told.state == GIFT_ABSENT)
        return (size_t)sprintf(to, "absent");
    if (told.state == GIFT_UNKNOWN)
        return (size_t)sprintf(to, "unknown");
    if (told.state != GIFT_VALUE)
        return (size_t)sprintf(to, "refused");
    if (told.kind == 0)
        return (size_t)sprintf(to, "flag %u", body[0]);
    if (told.kind == 1) {
        uint64_t number = 0;
        for (size_t i = 0; i < 8; i++)
            number = number << 8 | body[i];
        return (size_t)sprintf(to, "number %lu", number);
    }
    to += sprintf(to, "text \"");
    for (size_t i = 0; i < told.length; i++)
        to += put_byte(to, body[i]);
    to += sprintf(to, "\"");
    return (size_t)(to - start);
}

enum { LIST_MOST = 80 + GIFT_BUNDLE_SETTINGS * (ANSWER_MOST + 24) };

static inline uint32_t bundle_edition(const uint8_t *bundle)
{
    return (uint32_t)bundle[0] << 8 | bundle[1];
}

/* What a reader sees of a bundle that it accepted, as a list; how many characters. Its must-know is the last byte of a setting's entry in the table (docs/BUNDLE.md). */
static inline size_t put_list(char *to, gift_bundle seen, const uint8_t *bundle)
{
    char *start = to;
    to += sprintf(to, "# a bundle of edition %u, as a node of edition %u sees it\n", bundle_edition(bundle), seen.reader);
    for (uint32_t i = 0; i < seen.count; i++) {
        gift_told told = gift_bundle_entry(seen, bundle, seen.size, i);
        to += sprintf(to, "%u ", told.id);
        to += put_answer(to, told, bundle);
        to += sprintf(to, "%s\n", bundle[8 + 12 * i + 11] ? " must-know" : "");
    }
    return (size_t)(to - start);
}

/* ---- reading */

typedef struct list {
    gift_row rows[GIFT_BUNDLE_SETTINGS];
    size_t count, bytes;
    uint8_t pool[GIFT_BUNDLE_SETTINGS * 255];
} list;

/* Where reading is in a line, and what is wrong with it. */
typedef struct reading {
    const char *at, *end;
    char what[200];
} reading;

#define WRONG(r, ...) (snprintf((r)->what, sizeof(r)->what, __VA_ARGS__), 0)

static inline int is_blank(char c)
{
    return c == ' ' || c == '\t' || c == '\r';
}

static inline void skip_blanks(reading *r)
{
    while (r->at < r->end && is_blank(*r->at))
        r->at++;
}

static inline int at_end(reading *r)
{
    skip_blanks(r);
    return r->at == r->end || *r->at == '#';
}

/* The next word, up to a blank or a comment. For a message it is cut, and a byte that is not printable is a dot. */
typedef struct word {
    const char *at;
    size_t size;
    char shown[24];
} word;

static inline word next_word(reading *r)
{
    word w;
    skip_blanks(r);
    w.at = r->at;
    while (r->at < r->end && !is_blank(*r->at) && *r->at != '#')
        r->at++;
    w.size = (size_t)(r->at - w.at);
    size_t n = w.size < sizeof w.shown ? w.size : sizeof w.shown - 4;
    for (size_t i = 0; i < n; i++)
        w.shown[i] = w.at[i] < 32 || w.at[i] > 126 ? '.' : w.at[i];
    memcpy(w.shown + n, n < w.size ? "..." : "", n < w.size ? 4 : 1);
    return w;
}

static inline int is_word(word w, const char *text)
{
    return w.size == strlen(text) && memcmp(w.at, text, w.size) == 0;
}

/* A number in digits, no zero before it, at most `most`. */
static inline int read_number(reading *r, const char *what, uint64_t most, uint64_t *to)
{
    word w = next_word(r);
    uint64_t n = 0;
    if (!w.size)
        return WRONG(r, "%s is to follow, and the line ends", what);
    for (size_t i = 0; i < w.size; i++) {
        if (w.at[i] < '0' || w.at[i] > '9')
            return WRONG(r, "%s is digits alone, and here is '%s'", what, w.shown);
        uint64_t digit = (uint64_t)(w.at[i] - '0');
        if (digit > most || n > (most - digit) / 10)
            return WRONG(r, "%s is at most %lu, and here is '%s'", what, most, w.shown);
        n = 10 * n + digit;
    }
    if (w.size > 1 && w.at[0] == '0')
        return WRONG(r, "%s has no zero before it, and here is '%s'", what, w.shown);
    *to = n;
    return 1;
}

static inline int hex_value(char c)
{
    return c >= '0' && c <= '9' ? c - '0' : c >= 'a' && c <= 'f' ? c - 'a' + 10 : c >= 'A' && c <= 'F' ? c - 'A' + 10 : -1;
}

/* A text in quotation marks. A byte from 128 on may stand as it is, as editors write UTF-8; a control character may not. */
static inline int read_text(reading *r, list *to)
{
    size_t start = to->bytes;
    skip_blanks(r);
    if (r->at == r->end || *r->at != '"')
        return WRONG(r, "a text stands in quotation marks");
    for (r->at++; r->at < r->end && *r->at != '"'; r->at++) {
        uint8_t b = (uint8_t)*r->at;
        if (b == '\\') {
            if (r->end - r->at < 4 || r->at[1] != 'x' || hex_value(r->at[2]) < 0 || hex_value(r->at[3]) < 0)
                return WRONG(r, "after a \\ come x and two hex digits; a \\ itself is \\x5c and a quotation mark \\x22");
            b = (uint8_t)(16 * hex_value(r->at[2]) + hex_value(r->at[3]));
            r->at += 3;
        } else if (b < 32 || b == 127)
            return WRONG(r, "a control character stands in the text; it is to be written \\x%02x", b);
        if (to->bytes - start == 255)
            return WRONG(r, "a text has at most 255 bytes");
        to->pool[to->bytes++] = b;
    }
    if (r->at == r->end)
        return WRONG(r, "the text has no quotation mark at its end");
    r->at++;
    if (r->at < r->end && !is_blank(*r->at) && *r->at != '#')
        return WRONG(r, "after the text's quotation mark comes a blank; a quotation mark in a text is \\x22");
    return 1;
}

static inline int read_value(reading *r, uint32_t edition, uint32_t *kind, list *to)
{
    uint64_t n = 0;
    word w = next_word(r);
    if (is_word(w, "flag")) {
        *kind = 0;
        if (!read_number(r, "a flag", 1, &n))
            return 0;
        to->pool[to->bytes++] = (uint8_t)n;
        return 1;
    }
    if (is_word(w, "number")) {
        *kind = 1;
        if (!read_number(r, "a number", UINT64_MAX, &n))
            return 0;
        for (int shift = 56; shift >= 0; shift -= 8)
            to->pool[to->bytes++] = (uint8_t)(n >> shift);
        return 1;
    }
    if (is_word(w, "text")) {
        *kind = 2;
        return edition < 2 ? WRONG(r, "edition 1 has no text") : read_text(r, to);
    }
    if (!w.size)
        return WRONG(r, "a kind is to follow (flag, number or text), and the line ends");
    if (is_word(w, "unknown"))
        return WRONG(r, "unknown is no value: show the bundle as a node of edition 2 sees it");
    return WRONG(r, "a kind is flag, number or text, and here is '%s'", w.shown);
}

/* A line's setting, behind those that are there. */
static inline int read_setting(reading *r, uint32_t edition, list *to)
{
    uint64_t id = 0;
    uint32_t kind = 0, must_know = 0;
    size_t start = to->bytes;
    if (!read_number(r, "an id", UINT32_MAX, &id))
        return 0;
    if (to->count && id == to->rows[to->count - 1].id)
        return WRONG(r, "id %lu is there twice", id);
    if (to->count && id < to->rows[to->count - 1].id)
        return WRONG(r, "ids rise, and %lu comes after %u", id, to->rows[to->count - 1].id);
    if (to->count == GIFT_BUNDLE_SETTINGS)
        return WRONG(r, "a bundle has at most %d settings", GIFT_BUNDLE_SETTINGS);
    if (!read_value(r, edition, &kind, to))
        return 0;
    if (!at_end(r)) {
        word w = next_word(r);
        if (!is_word(w, "must-know"))
            return WRONG(r, "after the value comes must-know or nothing, and here is '%s'", w.shown);
        must_know = 1;
    }
    if (!at_end(r))
        return WRONG(r, "after must-know comes nothing, and here is '%s'", next_word(r).shown);
    to->rows[to->count++] = (gift_row){(uint32_t)id, kind, must_know, (uint32_t)(to->bytes - start)};
    if (24 + 12 * to->count + to->bytes > GIFT_BUNDLE_MOST)
        return WRONG(r, "with this setting the bundle has more than %d bytes", GIFT_BUNDLE_MOST);
    return 1;
}

/* A whole list: 0, or the number of the first line that is wrong, and what is wrong with it. */
static inline size_t read_list(const char *text, size_t size, uint32_t edition, list *to, reading *r)
{
    to->count = to->bytes = 0;
    size_t line = 0;
    for (size_t at = 0, next; at < size; at = next + 1) {
        for (next = at; next < size && text[next] != '\n'; next++)
            ;
        line++;
        r->at = text + at;
        r->end = text + next;
        if (!at_end(r) && !read_setting(r, edition, to))
            return line;
    }
    return 0;
}

/* ---- the same list, laid out as `show` lays it out */

/* Comments and empty lines left out, one blank between words, texts as they are printed; what a line means is not looked at. A longer list than `show` ever prints is cut: it is none. */
static inline size_t put_plain(char *to, const char *text, size_t size)
{
    char *start = to, *line = to;
    int quoted = 0, blank = 0;
    for (size_t i = 0; i <= size && to - start < LIST_MOST; i++) {
        char c = i < size ? text[i] : '\n';
        if (c == '#' && !quoted)
            while (i + 1 < size && text[i + 1] != '\n')
                i++;
        else if (c == '\n') {
            if (to != line)
                *to++ = '\n';
            line = to;
            quoted = blank = 0;
        } else if (!quoted && is_blank(c))
            blank = 1;
        else {
            if (blank && to != line)
                *to++ = ' ';
            blank = 0;
            quoted ^= c == '"';
            int escape = quoted && c == '\\' && size - i > 3;
            uint8_t b = (uint8_t)(escape ? 16 * hex_value(text[i + 2]) + hex_value(text[i + 3]) : c);
            i += escape ? 3 : 0;
            to += escape || b > 127 ? put_byte(to, b) : (size_t)sprintf(to, "%c", b);
        }
    }
    return (size_t)(to - start);
}

/* ---- a list made a bundle */

static inline gift_written write_list(uint32_t edition, const uint8_t *key, const list *from, uint8_t *out)
{
    return (edition == 1 ? gift_bundle_write_1 : gift_bundle_write_2)(key, GIFT_KEY_SIZE, (const uint32_t *)from->rows, 4 * from->count, from->pool, from->bytes, out, GIFT_BUNDLE_MOST);
}

#endif
