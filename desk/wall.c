/* The number on the wall: from a folder of what each node had at each hour, the hours of each month in which two nodes disagreed about a setting, which settings and which nodes; and, told apart, the
 * hours in which a node's bundle was refused or was not there. Every comparison is the library's (gift_bundle_differ); this program reads folders, counts and prints.
 *
 * usage: wall FOLDER KEY [PAGE]
 *   FOLDER/NODE/2026-11-15T10.bundle    what NODE had in the hour that begins at ten, UTC
 *   FOLDER/NODE/edition                 1 or 2, which the node's reader is of; 2 if there is no such file
 *   KEY                                 a file of 16 bytes
 *   PAGE                                where the page in HTML goes, if one is wanted
 * Exit status: 0 no two nodes disagreed, 1 some did, 2 the folder, the key or the page cannot be used; then nothing is printed and no page is written.
 *
 * docs/DESK.md says what is counted as what. */
#include <dirent.h>
#include "desk.h"

enum { MOST_NODES = 4096, MOST_HOURS = 10 * 366 * 24, ROWS = 30 };

/* ---- hours: counted from 1970, UTC */

static long days_before(long year, unsigned month) /* the 1st of a month, in days since 1970-01-01 (proleptic Gregorian) */
{
    long y = year - (month <= 2), era = (y >= 0 ? y : y - 399) / 400;
    unsigned long of_era = (unsigned long)(y - era * 400), of_year = (153 * (month + (month > 2 ? -3u : 9u)) + 2) / 5;
    return era * 146097 + (long)(of_era * 365 + of_era / 4 - of_era / 100 + of_year) - 719468;
}

typedef struct date {
    unsigned year, month, day, hour;
} date;

static date date_of(long hour)
{
    date d = {0, 1, 0, (unsigned)(hour % 24)};
    long days = hour / 24;
    d.year = (unsigned)(1970 + days / 366);
    while (days_before((long)d.year + 1, 1) <= days)
        d.year++;
    while (d.month < 12 && days_before(d.year, d.month + 1) <= days)
        d.month++;
    d.day = (unsigned)(days - days_before(d.year, d.month)) + 1;
    return d;
}

/* The hour that a file's name says, or -1: YYYY-MM-DDTHH.bundle of a day that there is, from 1970 on. */
static long hour_of(const char *name)
{
    static const char form[] = "####-##-##T##.bundle";
    unsigned n[4] = {0}, field = 0;
    if (strlen(name) != sizeof form - 1)
        return -1;
    for (size_t i = 0; i < sizeof form - 1; i++) {
        if (form[i] == '#') {
            if (name[i] < '0' || name[i] > '9')
                return -1;
            n[field] = 10 * n[field] + (unsigned)(name[i] - '0');
        } else {
            if (name[i] != form[i])
                return -1;
            if (field < 3)
                field++;
        }
    }
    if (n[0] < 1970 || n[1] < 1 || n[1] > 12 || n[2] < 1 || n[3] > 23)
        return -1;
    long first = days_before(n[0], n[1]), next = n[1] == 12 ? days_before((long)n[0] + 1, 1) : days_before(n[0], n[1] + 1);
    return (long)n[2] > next - first ? -1 : 24 * (first + (long)n[2] - 1) + (long)n[3];
}

/* ---- what files hold: each content once */

typedef struct content {
    uint8_t *bytes;
    size_t size;
    gift_bundle seen[2]; /* by the reader of edition 1, and of 2 */
    uint64_t hash;
    size_t next;         /* in its chain, or 0 */
} content;

static uint8_t key[GIFT_KEY_SIZE];
static content *contents; /* from 1 on; 0 is a bundle that is not there */
static size_t contents_count = 1, contents_room, chains[65536];

/* Reads a file; a longer one than a bundle is cut one byte past that, and its length is refused like any other. 0, and why in errno, if it cannot be read. */
static size_t content_of(const char *path)
{
    static uint8_t room[GIFT_BUNDLE_MOST + 1];
    long read = read_file(path, room, sizeof room);
    if (read < 0)
        return 0;
    size_t size = (size_t)read;
    uint64_t hash = 14695981039346656037u;
    for (size_t i = 0; i < size; i++)
        hash = (hash ^ room[i]) * 1099511628211u;
    size_t *chain = &chains[(hash ^ hash >> 32) % 65536];
    for (size_t c = *chain; c; c = contents[c].next)
        if (contents[c].hash == hash && contents[c].size == size && memcmp(contents[c].bytes, room, size) == 0)
            return c;
    contents = grown(contents, contents_count, &contents_room, sizeof *contents);
    content *made = &contents[contents_count];
    made->bytes = need(malloc(size + 1));
    memcpy(made->bytes, room, size);
    made->size = size;
    made->hash = hash;
    for (uint32_t edition = 1; edition <= 2; edition++)
        made->seen[edition - 1] = open_as(edition, key, made->bytes, size);
    made->next = *chain;
    *chain = contents_count;
    return contents_count++;
}

/* ---- nodes */

typedef struct node {
    char *name;
    uint32_t edition;
    long first;  /* its first hour, or -1 if it has none */
    size_t *has; /* from the wall's first hour on: its content, 0 where there is none */
    struct { long hour; size_t content; } *read;
    size_t read_count, read_room;
} node;

static node nodes[MOST_NODES];
static size_t nodes_count, files_count, passed_over;
static long first_hour = -1, last_hour = -1;
static char *first_file, *last_file;

static int by_name(const void *one, const void *other)
{
    return strcmp(((const node *)one)->name, ((const node *)other)->name);
}

static char *joined(const char *folder, const char *name)
{
    size_t room = strlen(folder) + strlen(name) + 2;
    char *path = need(malloc(room));
    snprintf(path, room, "%s/%s", folder, name);
    return path;
}

static void pass_over(const char *path, const char *why)
{
    passed_over++;
    fprintf(stderr, "wall: %s: passed over, %s\n", path, why);
}

static uint32_t edition_in(const char *path)
{
    uint8_t room[4];
    long size = read_file(path, room, sizeof room);
    if (size < 0)
        fail(path, strerror(errno));
    while (size > 0 && (room[size - 1] == '\n' || room[size - 1] == '\r'))
        size--;
    if (size != 1 || (room[0] != '1' && room[0] != '2'))
        fail(path, "the edition of a node is 1 or 2, and this file has something else");
    return room[0] - '0';
}

static void keep(char **kept, const char *path)
{
    free(*kept);
    *kept = need(malloc(strlen(path) + 1));
    memcpy(*kept, path, strlen(path) + 1);
}

static void read_node(node *n, const char *folder)
{
    DIR *open = opendir(folder);
    if (!open)
        fail(folder, strerror(errno));
    for (struct dirent *entry; (entry = readdir(open));) {
        if (entry->d_name[0] == '.')
            continue;
        char *path = joined(folder, entry->d_name);
        long hour = hour_of(entry->d_name);
        size_t held = hour < 0 ? 0 : content_of(path);
        if (strcmp(entry->d_name, "edition") == 0)
            n->edition = edition_in(path);
        else if (hour < 0)
            pass_over(path, "its name is no hour that there is (YYYY-MM-DDTHH.bundle, 00 to 23)");
        else {
            if (!held)
                fprintf(stderr, "wall: %s: it counts as missing: %s\n", path, strerror(errno));
            else {
                n->read = grown(n->read, n->read_count, &n->read_room, sizeof *n->read);
                n->read[n->read_count].hour = hour;
                n->read[n->read_count++].content = held;
                files_count++;
            }
            if (n->first < 0 || hour < n->first)
                n->first = hour;
            if (first_hour < 0 || hour < first_hour) {
                first_hour = hour;
                keep(&first_file, path);
            }
            if (hour > last_hour) {
                last_hour = hour;
                keep(&last_file, path);
            }
        }
        free(path);
    }
    closedir(open);
    if (n->first < 0)
        fprintf(stderr, "wall: %s: a node without any bundle; it counts as missing in every hour\n", folder);
}

static void read_folder(const char *folder)
{
    DIR *open = opendir(folder);
    if (!open)
        fail(folder, strerror(errno));
    for (struct dirent *entry; (entry = readdir(open));) {
        if (entry->d_name[0] == '.')
            continue;
        char *path = joined(folder, entry->d_name);
        DIR *inside = opendir(path);
        if (!inside)
            pass_over(path, "it is no folder of a node that can be read");
        else {
            closedir(inside);
            if (nodes_count == MOST_NODES)
                fail(folder, "more nodes than this program takes");
            nodes[nodes_count].edition = 2;
            nodes[nodes_count].first = -1;
            keep(&nodes[nodes_count++].name, entry->d_name);
        }
        free(path);
    }
    closedir(open);
    if (!nodes_count)
        fail(folder, "there is no folder of a node in it");
    qsort(nodes, nodes_count, sizeof *nodes, by_name);
    for (size_t i = 0; i < nodes_count; i++) {
        char *path = joined(folder, nodes[i].name);
        read_node(&nodes[i], path);
        free(path);
        fprintf(stderr, "wall: read node %zu of %zu, %s: %zu bundles\n", i + 1, nodes_count, nodes[i].name, nodes[i].read_count);
    }
    if (first_hour < 0)
        fail(folder, "there is no bundle in it");
    if (last_hour - first_hour >= MOST_HOURS) {
        fprintf(stderr, "wall: %s: over ten years before %s; one of the two clocks was wrong\n", first_file, last_file);
        exit(2);
    }
    for (size_t i = 0; i < nodes_count; i++) {
        node *n = &nodes[i];
        n->has = need(calloc((size_t)(last_hour - first_hour) + 1, sizeof *n->has));
        for (size_t k = 0; k < n->read_count; k++)
            n->has[n->read[k].hour - first_hour] = n->read[k].content;
        free(n->read);
    }
}

static size_t held_by(const node *n, long hour)
{
    return n->has[hour - first_hour];
}

/* The number by which a node refuses what it has, or by which the wall's reader, of edition 2, does. */
static uint32_t refusal_of(const node *n, size_t held)
{
    const content *c = &contents[held];
    uint32_t own = c->seen[n->edition - 1].code;
    return own != GIFT_DONE ? own : c->seen[1].code;
}

static int is_compared(const node *n, long hour)
{
    size_t held = held_by(n, hour);
    return held && refusal_of(n, held) == GIFT_DONE;
}

static int nobody_has(long hour)
{
    for (size_t i = 0; i < nodes_count; i++)
        if (held_by(&nodes[i], hour))
            return 0;
    return 1;
}

/* A node is there from its own first hour on. An hour that nobody has is told apart. */
static int is_missing(const node *n, long hour)
{
    return !held_by(n, hour) && n->first <= hour && !nobody_has(hour);
}

/* ---- two contents: compared once, by the library */

typedef struct pair {
    size_t one, other, next, count;
    uint32_t *ids;
} pair;

static pair *pairs; /* from 1 on */
static size_t pairs_count = 1, pairs_room, pair_chains[65536];

static const pair *compared(size_t one, size_t other)
{
    static gift_difference rows[GIFT_DIFFERENCES];
    if (one > other) {
        size_t kept = one;
        one = other;
        other = kept;
    }
    size_t *chain = &pair_chains[(one * 40503 + other) % 65536];
    for (size_t i = *chain; i; i = pairs[i].next)
        if (pairs[i].one == one && pairs[i].other == other)
            return &pairs[i];
    const content *a = &contents[one], *b = &contents[other];
    gift_compared told = gift_bundle_differ(key, sizeof key, a->bytes, a->size, b->bytes, b->size, (uint32_t *)rows, 9 * GIFT_DIFFERENCES);
    if (told.code != GIFT_DONE)
        fail("two accepted bundles were not compared", gift_refusal_text(told.code));
    pairs = grown(pairs, pairs_count, &pairs_room, sizeof *pairs);
    pair *made = &pairs[pairs_count];
    made->one = one;
    made->other = other;
    made->next = *chain;
    made->count = told.count;
    made->ids = need(malloc((told.count + 1) * sizeof *made->ids));
    for (size_t i = 0; i < told.count; i++)
        made->ids[i] = rows[i].id;
    *chain = pairs_count++;
    return made;
}

static int differ_in(size_t one, size_t other, uint32_t id)
{
    if (one == other)
        return 0;
    const pair *p = compared(one, other);
    for (size_t i = 0; i < p->count; i++)
        if (p->ids[i] == id)
            return 1;
    return 0;
}

/* ---- one hour */

typedef struct difference {
    uint32_t id;
    int two_values;   /* two nodes, each by its own edition, showed two values */
    uint16_t *groups; /* of each node: those that answered alike have one number, from 1 on; 0 is a node that was not compared */
} difference;

/* What an hour was like; consecutive hours in which every node had the same are one stretch. */
typedef struct stretch {
    long first, last;
    size_t differences_count, refused, missing, nobody;
    difference *differences;
} stretch;

static stretch *stretches;
static size_t stretches_count, stretches_room;

static gift_told told_of(size_t held, uint32_t edition, uint32_t id)
{
    const content *c = &contents[held];
    return gift_bundle_look(c->seen[edition - 1], c->bytes, c->size, id);
}

static int by_id(const void *one, const void *other)
{
    uint32_t a = ((const difference *)one)->id, b = ((const difference *)other)->id;
    return a < b ? -1 : a > b;
}

static int same_as_before(long hour)
{
    if (hour == first_hour)
        return 0;
    for (size_t i = 0; i < nodes_count; i++) {
        const node *n = &nodes[i];
        if (held_by(n, hour) != held_by(n, hour - 1) || is_missing(n, hour) != is_missing(n, hour - 1))
            return 0;
    }
    return 1;
}

/* Which nodes answered alike about an id, and whether two values were shown. */
static void group(difference *d, long hour)
{
    static size_t first_of[MOST_NODES + 1];
    uint16_t count = 0, shown_in = 0;
    d->groups = need(calloc(nodes_count, sizeof *d->groups));
    for (size_t i = 0; i < nodes_count; i++) {
        if (!is_compared(&nodes[i], hour))
            continue;
        size_t held = held_by(&nodes[i], hour);
        uint16_t g = 1;
        while (g <= count && differ_in(first_of[g], held, d->id))
            g++;
        if (g > count)
            first_of[++count] = held;
        d->groups[i] = g;
        if (told_of(held, nodes[i].edition, d->id).state == GIFT_VALUE) {
            d->two_values |= shown_in && shown_in != g;
            shown_in = g;
        }
    }
}

static void look_at(long hour)
{
    if (same_as_before(hour)) {
        stretches[stretches_count - 1].last = hour;
        return;
    }
    stretches = grown(stretches, stretches_count, &stretches_room, sizeof *stretches);
    stretch *s = &stretches[stretches_count++];
    memset(s, 0, sizeof *s);
    s->first = s->last = hour;
    s->nobody = (size_t)nobody_has(hour);
    /* Two nodes differ in an id exactly if one of them differs there from the first that is compared: being the same answer passes on. */
    size_t reference = 0, room = 0;
    for (size_t i = 0; i < nodes_count; i++) {
        size_t held = held_by(&nodes[i], hour);
        s->missing += (size_t)is_missing(&nodes[i], hour);
        s->refused += held && !is_compared(&nodes[i], hour);
        if (!is_compared(&nodes[i], hour))
            continue;
        if (!reference)
            reference = held;
        if (held == reference)
            continue;
        const pair *p = compared(reference, held);
        for (size_t k = 0; k < p->count; k++) {
            size_t d = 0;
            while (d < s->differences_count && s->differences[d].id != p->ids[k])
                d++;
            if (d < s->differences_count)
                continue;
            s->differences = grown(s->differences, d, &room, sizeof *s->differences);
            s->differences[s->differences_count++] = (difference){p->ids[k], 0, 0};
        }
    }
    for (size_t k = 0; k < s->differences_count; k++)
        group(&s->differences[k], hour);
    if (s->differences_count)
        qsort(s->differences, s->differences_count, sizeof *s->differences, by_id);
}

/* ---- texts */

/* A text, for a page where that is wanted. A name may have any bytes: a control character is shown as \xNN. */
static void put(FILE *to, int page, const char *text)
{
    for (; *text; text++) {
        const char *as = !page ? 0 : *text == '&' ? "&amp;" : *text == '<' ? "&lt;" : *text == '>' ? "&gt;" : *text == '"' ? "&quot;" : 0;
        if (as)
            fprintf(to, "%s", as);
        else if ((uint8_t)*text < 32 || *text == 127)
            fprintf(to, "\\x%02x", (uint8_t)*text);
        else
            fprintf(to, "%c", *text);
    }
}

static void put_hour(FILE *to, long hour)
{
    date d = date_of(hour);
    fprintf(to, "%04u-%02u-%02uT%02u", d.year, d.month, d.day, d.hour);
}

static void put_stretch(FILE *to, const stretch *s)
{
    put_hour(to, s->first);
    if (s->last != s->first) {
        fprintf(to, " to ");
        put_hour(to, s->last);
        fprintf(to, " (%ld hours)", s->last - s->first + 1);
    }
}

/* Whether a node of an old edition says unknown where its bundle has a value. */
static int says_unknown(size_t i, long hour, uint32_t id)
{
    size_t held = held_by(&nodes[i], hour);
    return told_of(held, nodes[i].edition, id).state != told_of(held, 2, id).state;
}

static void put_group(FILE *to, int page, long hour, const difference *d, uint16_t g, size_t others)
{
    const char *before = " at ";
    for (size_t i = 0, told = 0; i < nodes_count; i++) {
        if (d->groups[i] != g)
            continue;
        if (!told++) {
            char text[ANSWER_MOST + 1];
            size_t held = held_by(&nodes[i], hour);
            text[put_answer(text, told_of(held, 2, d->id), contents[held].bytes)] = 0;
            put(to, page, text);
        }
        if (others) {
            fprintf(to, " at the other %zu", others);
            return;
        }
        fprintf(to, "%s", before);
        put(to, page, nodes[i].name);
        fprintf(to, "%s", says_unknown(i, hour, d->id) ? " (edition 1, says unknown)" : "");
        before = ", ";
    }
}

/* The answers about one setting in an hour, each with the nodes that have it. An answer that over four nodes have, more than any other, comes last, and its nodes are the others that were compared. */
static void put_answers(FILE *to, int page, long hour, const difference *d)
{
    static size_t sizes[MOST_NODES + 1];
    uint16_t count = 0, most = 0;
    const char *between = "";
    memset(sizes, 0, (nodes_count + 1) * sizeof *sizes);
    for (size_t i = 0; i < nodes_count; i++) {
        sizes[d->groups[i]]++;
        if (d->groups[i] > count)
            count = d->groups[i];
    }
    for (uint16_t g = 1; g <= count; g++)
        if (sizes[g] > 4 && (!most || sizes[g] > sizes[most]))
            most = g;
    for (size_t i = 0; most && i < nodes_count; i++)
        if (d->groups[i] == most && says_unknown(i, hour, d->id))
            most = 0;
    for (uint16_t g = 1; g <= count; g++)
        if (g != most) {
            fprintf(to, "%s", between);
            put_group(to, page, hour, d, g, 0);
            between = "; ";
        }
    if (most) {
        fprintf(to, "%s", between);
        put_group(to, page, hour, d, most, sizes[most]);
    }
}

/* ---- months */

typedef struct month {
    unsigned year, month;
    long hours, disagreed, two_values, refused, missing, nobody;
} month;

static month *months;
static size_t months_count, months_room;

/* The month of an hour; hours come in their order. */
static month *month_of(long hour)
{
    date d = date_of(hour);
    if (!months_count || months[months_count - 1].year != d.year || months[months_count - 1].month != d.month) {
        months = grown(months, months_count, &months_room, sizeof *months);
        memset(&months[months_count], 0, sizeof *months);
        months[months_count].year = d.year;
        months[months_count++].month = d.month;
        fprintf(stderr, "wall: comparing the hours of %04u-%02u\n", d.year, d.month);
    }
    return &months[months_count - 1];
}

static void count_hours(void)
{
    for (long hour = first_hour; hour <= last_hour; hour++) {
        month *m = month_of(hour);
        look_at(hour);
        const stretch *s = &stretches[stretches_count - 1];
        int two_values = 0;
        for (size_t k = 0; k < s->differences_count; k++)
            two_values |= s->differences[k].two_values;
        m->hours++;
        m->disagreed += s->differences_count != 0;
        m->two_values += two_values;
        m->refused += s->refused != 0;
        m->missing += s->missing != 0;
        m->nobody += s->nobody != 0;
    }
}

static long all_disagreed(void)
{
    long sum = 0;
    for (size_t i = 0; i < months_count; i++)
        sum += months[i].disagreed;
    return sum;
}

/* Why nodes were left out of a stretch's comparison, a line or a row each. */
static void put_left_out(FILE *to, int page, const stretch *s)
{
    const char *before = page ? "<tr><td>" : "", *between = page ? "</td><td class=\"words\">" : " ", *after = page ? "</td></tr>\n" : "\n";
    if (s->nobody) {
        fprintf(to, "%s", before);
        put_stretch(to, s);
        fprintf(to, "%sno node has a bundle%s", between, after);
    }
    for (size_t i = 0; (s->refused || s->missing) && i < nodes_count; i++) {
        size_t held = held_by(&nodes[i], s->first);
        uint32_t refused = held ? refusal_of(&nodes[i], held) : GIFT_DONE;
        if (refused == GIFT_DONE && !is_missing(&nodes[i], s->first))
            continue;
        fprintf(to, "%s", before);
        put_stretch(to, s);
        fprintf(to, "%snode ", between);
        put(to, page, nodes[i].name);
        if (refused != GIFT_DONE)
            fprintf(to, " refused its bundle with %u: %s%s", refused, gift_refusal_text(refused), after);
        else
            fprintf(to, " has no bundle%s", after);
    }
}

static void write_text(FILE *to)
{
    fprintf(to, "wall 1\nmonth    hours  disagreed  two values  refused  missing  nobody\n");
    for (size_t i = 0; i < months_count; i++) {
        const month *m = &months[i];
        fprintf(to, "%04u-%02u  %5ld  %9ld  %10ld  %7ld  %7ld  %6ld\n", m->year, m->month, m->hours, m->disagreed, m->two_values, m->refused, m->missing, m->nobody);
    }
    for (size_t i = 0; i < stretches_count; i++) {
        const stretch *s = &stretches[i];
        for (size_t k = 0; k < s->differences_count; k++) {
            put_stretch(to, s);
            fprintf(to, " setting %u: ", s->differences[k].id);
            put_answers(to, 0, s->first, &s->differences[k]);
            fprintf(to, "\n");
        }
        put_left_out(to, 0, s);
    }
    if (passed_over)
        fprintf(to, "passed over: %zu\n", passed_over);
    fprintf(to, "%zu nodes, %ld hours, %ld of them with two nodes that disagreed\n", nodes_count, last_hour - first_hour + 1, all_disagreed());
}

/* ---- the page: one file, nothing from elsewhere, readable in print */

static const char style[] =
    "body{font:16px/1.45 Georgia,'Liberation Serif',serif;color:#1a1a1a;background:#fff;max-width:60rem;margin:2rem auto;padding:0 1rem}"
    "h1{font-size:1.5rem;margin:0 0 .25rem}h2{font-size:1.15rem;margin:2rem 0 .5rem}.number{font-size:4.5rem;line-height:1;margin:1rem 0 .25rem;font-variant-numeric:tabular-nums}"
    "table{border-collapse:collapse;font-variant-numeric:tabular-nums;width:100%}th,td{padding:.25rem .9rem .25rem 0;text-align:right;border-bottom:1px solid #ccc;vertical-align:top}"
    "th{font-weight:600}th:first-child,td:first-child{text-align:left;white-space:nowrap}td.words,th.words{text-align:left;overflow-wrap:anywhere}.quiet{color:#555}"
    "svg{width:100%;height:auto;-webkit-print-color-adjust:exact;print-color-adjust:exact}svg text{font:12px Georgia,'Liberation Serif',serif;fill:#1a1a1a}"
    "@media print{body{margin:0;max-width:none;font-size:11pt}h2{break-after:avoid}tr,svg{break-inside:avoid}thead{display:table-header-group}}";

static void put_bar(FILE *to, long x, long width, long bottom, long height, const char *colour)
{
    if (height)
        fprintf(to, "<rect x=\"%ld\" y=\"%ld\" width=\"%ld\" height=\"%ld\" fill=\"%s\" stroke=\"#1f4e79\" stroke-width=\".5\"/>", x, bottom - height, width, height, colour);
}

/* So many of `most` hours, in a chart of that height: something, if it is not 0. */
static long bar_of(long hours, long most, long height)
{
    long bar = hours * height / most;
    return hours && !bar ? 1 : bar;
}

static void write_chart(FILE *to)
{
    const long left = 44, height = 180, top = 18, room = 760, bottom = top + height;
    long most = 1, width = room / (long)months_count;
    if (width > 90)
        width = 90;
    for (size_t i = 0; i < months_count; i++)
        if (months[i].disagreed > most)
            most = months[i].disagreed;
    fprintf(to, "<svg viewBox=\"0 0 %ld %ld\" role=\"img\" aria-label=\"Hours of each month in which two nodes disagreed\">\n", left + room, bottom + 40);
    for (long k = 0; k <= 1; k++)
        fprintf(to, "<line x1=\"%ld\" x2=\"%ld\" y1=\"%ld\" y2=\"%ld\" stroke=\"#999\"/><text x=\"%ld\" y=\"%ld\" text-anchor=\"end\">%ld</text>\n", left, left + room, bottom - k * height,
                bottom - k * height, left - 6, bottom - k * height + 4, k * most);
    for (size_t i = 0; i < months_count; i++) {
        const month *m = &months[i];
        long x = left + (long)i * width, middle = x + width / 2, bar = bar_of(m->disagreed, most, height);
        put_bar(to, x + width / 8, width - width / 4, bottom, bar, "#a9c4e0");
        put_bar(to, x + width / 8, width - width / 4, bottom, bar_of(m->two_values, most, height), "#1f4e79");
        if (width >= 24) {
            fprintf(to, "<text x=\"%ld\" y=\"%ld\" text-anchor=\"middle\">%ld</text>", middle, bottom - bar - 4, m->disagreed);
            fprintf(to, "<text x=\"%ld\" y=\"%ld\" text-anchor=\"middle\">%02u</text>", middle, bottom + 16, m->month);
        }
        if (!i || m->month == 1)
            fprintf(to, "<text x=\"%ld\" y=\"%ld\" text-anchor=\"middle\">%04u</text>", middle, bottom + 32, m->year);
        fprintf(to, "\n");
    }
    fprintf(to, "</svg>\n<p class=\"quiet\">Hours of each month in which two nodes disagreed about a setting. Dark: hours in which two values were shown for one setting.</p>\n");
}

/* The worst first: two values, then more settings, then more hours. */
static size_t values_of(const stretch *s)
{
    size_t count = 0;
    for (size_t k = 0; k < s->differences_count; k++)
        count += (size_t)s->differences[k].two_values;
    return count;
}

static int by_harm(const void *one, const void *other)
{
    const stretch *a = *(stretch *const *)one, *b = *(stretch *const *)other;
    if (values_of(a) != values_of(b))
        return values_of(a) < values_of(b) ? 1 : -1;
    if (a->differences_count != b->differences_count)
        return a->differences_count < b->differences_count ? 1 : -1;
    long x = a->last - a->first, y = b->last - b->first;
    return x != y ? (x < y ? 1 : -1) : (a->first < b->first ? -1 : a->first > b->first);
}

static void put_more(FILE *to, size_t count)
{
    if (count)
        fprintf(to, "<p class=\"quiet\">%zu more are in the text that <code>./gift wall</code> prints.</p>\n", count);
}

static void write_worst(FILE *to)
{
    stretch **worst = need(malloc((stretches_count + 1) * sizeof *worst));
    size_t count = 0, shown = 0;
    for (size_t i = 0; i < stretches_count; i++)
        if (stretches[i].differences_count)
            worst[count++] = &stretches[i];
    if (count)
        qsort(worst, count, sizeof *worst, by_harm);
    fprintf(to, "<h2>The worst hours</h2>\n%s", count ? "<table><thead><tr><th>hours</th><th>setting</th><th class=\"words\">what nodes had</th></tr></thead>\n" : "<p>There are none.</p>\n");
    for (size_t i = 0, rows = 0; i < count && rows < ROWS; i++, shown++)
        for (size_t k = 0; k < worst[i]->differences_count; k++, rows++) {
            const difference *d = &worst[i]->differences[k];
            fprintf(to, "<tr><td>");
            put_stretch(to, worst[i]);
            fprintf(to, "</td><td>%u</td><td class=\"words\">%s", d->id, d->two_values ? "<b>two values</b>: " : "");
            put_answers(to, 1, worst[i]->first, d);
            fprintf(to, "</td></tr>\n");
        }
    fprintf(to, "%s", count ? "</table>\n" : "");
    put_more(to, count - shown);
    free(worst);
}

static void write_left_out(FILE *to)
{
    size_t count = 0, rows = 0, shown = 0;
    fprintf(to, "<h2>Refused and missing</h2>\n");
    for (size_t i = 0; i < stretches_count; i++) {
        const stretch *s = &stretches[i];
        if (!s->refused && !s->missing && !s->nobody)
            continue;
        if (!count++)
            fprintf(to, "<table><thead><tr><th>hours</th><th class=\"words\">what happened</th></tr></thead>\n");
        if (rows < ROWS) {
            put_left_out(to, 1, s);
            rows += s->refused + s->missing + s->nobody;
            shown++;
        }
    }
    fprintf(to, "%s", count ? "</table>\n" : "<p>There are none.</p>\n");
    put_more(to, count - shown);
}

static void write_page(FILE *to, const char *folder)
{
    const month *last = &months[months_count - 1];
    fprintf(to, "<!doctype html>\n<html lang=\"en\"><head><meta charset=\"utf-8\"><meta name=\"viewport\" content=\"width=device-width\"><title>The number on the wall</title><style>%s</style></head><body>\n",
            style);
    fprintf(to, "<h1>Hours in which two nodes disagreed about a setting</h1>\n<p class=\"quiet\">");
    put(to, 1, folder);
    fprintf(to, ": %zu nodes, from ", nodes_count);
    put_hour(to, first_hour);
    fprintf(to, " to ");
    put_hour(to, last_hour);
    fprintf(to, ", UTC</p>\n<p class=\"number\">%ld</p>\n<p>of the %ld hours of %04u-%02u, the last month; %ld of all %ld hours.</p>\n<h2>By month</h2>\n", last->disagreed, last->hours, last->year, last->month,
            all_disagreed(), last_hour - first_hour + 1);
    write_chart(to);
    fprintf(to, "<table><thead><tr><th>month</th><th>hours</th><th>disagreed</th><th>of these with two values</th><th>with a refused bundle</th><th>with a missing one</th><th>nobody has any</th></tr></thead>\n");
    for (size_t i = 0; i < months_count; i++) {
        const month *m = &months[i];
        fprintf(to, "<tr><td>%04u-%02u</td><td>%ld</td><td>%ld</td><td>%ld</td><td>%ld</td><td>%ld</td><td>%ld</td></tr>\n", m->year, m->month, m->hours, m->disagreed, m->two_values, m->refused, m->missing,
                m->nobody);
    }
    fprintf(to, "</table>\n");
    write_worst(to);
    write_left_out(to);
    fprintf(to, "<p class=\"quiet\">A node whose bundle was refused or missing in an hour is left out of that hour's comparison, and counted apart. Every comparison is the one that <code>./gift differ</code> makes, "
                "by the proved library.</p>\n</body></html>\n");
}

int main(int count, char **words)
{
    program = "wall";
    if (count < 3 || count > 4) {
        fprintf(stderr, "usage: wall FOLDER KEY [PAGE]\n");
        return 2;
    }
    read_key(words[2], key);
    contents = grown(contents, 0, &contents_room, sizeof *contents);
    pairs = grown(pairs, 0, &pairs_room, sizeof *pairs);
    read_folder(words[1]);
    fprintf(stderr, "wall: %zu bundles of %zu nodes, %zu of them different\n", files_count, nodes_count, contents_count - 1);
    count_hours();
    fprintf(stderr, "wall: %zu comparisons\n", pairs_count - 1);
    if (count == 4) {
        size_t room = strlen(words[3]) + 2;
        char *made = need(malloc(room)); /* nothing half-written is ever under the page's own name */
        snprintf(made, room, "%s~", words[3]);
        FILE *page = fopen(made, "wb");
        if (!page)
            fail(made, strerror(errno));
        write_page(page, words[1]);
        int failed = fflush(page) || ferror(page), why = errno;
        failed = fclose(page) || failed;
        if (failed || rename(made, words[3])) {
            why = failed ? why : errno;
            remove(made);
            fail(words[3], strerror(why));
        }
    }
    write_text(stdout);
    if (fflush(stdout) || ferror(stdout))
        fail("standard output", strerror(errno));
    return all_disagreed() != 0;
}
