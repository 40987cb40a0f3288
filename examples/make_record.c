/*
 * A tool that makes a job record of settings, for trying and for scripts. The record goes to
 * standard output. Whatever keeps it from that is told in one line on standard error; the
 * status is then 1, and nothing was written.
 *
 * Build, from the repository's top, after `make target/staticlib/libcaldurrex.a`:
 *
 *   cc -std=c11 -Iinclude examples/make_record.c examples/settings.c target/staticlib/libcaldurrex.a
 */
#include "caldurrex.h"
#include "settings.h"

#include <errno.h>
#include <signal.h>
#include <stdio.h>
#include <string.h>

enum { MAX_N = 1024, MAX_PAIRS = 256, INPUT_ROOM = 1 << 20 };
enum { M, LIST, STOP, FRAME, FROZEN, PAIRS, SOFT, ARIKAN, SETTINGS };

static struct setting settings[SETTINGS] = {
    [M] = {.name = "m", .due = "m from 2 to 10, for n = 2^m positions"},
    [LIST] = {.name = "list", .due = "a list size from 1 to 32"},
    [STOP] = {.name = "stop", .due = "a stop position from 0 to n"},
    [FRAME] = {.name = "frame", .due = "a frame number from 0 to 4294967295"},
    [FROZEN] = {.name = "frozen", .due = "positions from 0 to n - 1, as in frozen=0,1,2"},
    [PAIRS] = {.name = "pairs", .due = "pairs f:e of positions, as in pairs=4:0,4:3"},
    [SOFT] = {.name = "soft", .due = "n values from -2048 to 2047, as in soft=5,-3,2,7"},
    [ARIKAN] = {.name = "arikan", .due = "the bare word, for Arikan's transform", .bare = 1},
};

/* What the writer takes; n goes with m. */
static uint32_t number[FRAME + 1];
static uint8_t map[MAX_N / 8], pairs[4 * MAX_PAIRS];
static int16_t soft[MAX_N];
static size_t n, pairs_len;

static int show_usage(void)
{
    fputs("usage: make_record m=M [SETTING..] > FILE, for a job record of these settings, in any order:\n", stderr);
    settings_print();
    fputs("Where they are not given, list is 4, stop is n, frame is 0, and frozen and pairs are none; the soft values\n"
          "then come from standard input, with white space or commas between them. For example:\n"
          "  make_record m=2 list=2 frozen=0,1 soft=5,-3,2,7 > sample.record\n", stderr);
    return 1;
}

/* ---- lists */

/* The first item; a null pointer if there is none. */
static const char *first(const struct setting *s)
{
    return s->given != NULL && s->given[0] != 0 ? s->given : NULL;
}

/* The item behind this one; a null pointer if it is the last. */
static const char *next(struct item item)
{
    return item.at[item.len] == ',' ? item.at + item.len + 1 : NULL;
}

static void take_frozen(void)
{
    for (const char *at = first(&settings[FROZEN]); at != NULL;) {
        struct item item = item_up_to(at, ",");
        uint64_t i = setting_digits(&settings[FROZEN], item, 0);
        if (i >= n)
            die("frozen position %.*s is not below n = %zu; give %s", item_shown(item), item.at, n,
                settings[FROZEN].due);
        if (map[i / 8] >> (i % 8) & 1)
            die("frozen position %lu is given twice; give each once", (unsigned long)i);
        map[i / 8] |= (uint8_t)(1u << (i % 8));
        at = next(item);
    }
}

/* The writer takes two bytes for f and two for e, low byte first. */
static void put_pair(size_t place, struct item f, struct item e)
{
    const uint64_t parts[2] = {setting_digits(&settings[PAIRS], f, 0), setting_digits(&settings[PAIRS], e, 0)};
    if (parts[0] > 65535 || parts[1] > 65535)
        die("pair %.*s:%.*s has a part above 65535; give %s", item_shown(f), f.at, item_shown(e), e.at,
            settings[PAIRS].due);
    for (size_t byte = 0; byte < 4 && place < MAX_PAIRS; byte++)
        pairs[4 * place + byte] = (uint8_t)(parts[byte / 2] >> (8 * (byte % 2)));
}

static void take_pairs(void)
{
    size_t count = 0;
    for (const char *at = first(&settings[PAIRS]); at != NULL; count++) {
        struct item pair = item_up_to(at, ","), f = item_up_to(at, ",:");
        if (f.at[f.len] != ':')
            die("pairs: '%.*s' is no pair; give %s", item_shown(pair), pair.at, settings[PAIRS].due);
        put_pair(count, f, item_up_to(f.at + f.len + 1, ","));
        at = next(pair);
    }
    if (count > MAX_PAIRS)
        die("there are %zu pairs; give at most %d", count, MAX_PAIRS);
    pairs_len = 4 * count;
}

/* ---- soft values */

#define SPACES " \t\n\v\f\r"

/* All of standard input. A byte 0 would end the text; it is no part of a number anyway. */
static const char *read_input(void)
{
    static char text[INPUT_ROOM + 1];
    size_t len = fread(text, 1, INPUT_ROOM, stdin);
    if (ferror(stdin))
        die("standard input cannot be read (%s); give the soft values there, or as soft=5,-3,2,7", strerror(errno));
    if (len == INPUT_ROOM)
        die("standard input has %d bytes or more; give only the soft values there", INPUT_ROOM);
    for (size_t i = 0; i < len; i++)
        text[i] = text[i] != 0 ? text[i] : '?';
    return text;
}

static int16_t soft_value(size_t place, struct item item)
{
    int negative = item.len > 0 && item.at[0] == '-';
    uint64_t magnitude = setting_digits(&settings[SOFT], item, (size_t)negative);
    if (magnitude > (negative ? 2048 : 2047))
        die("soft value %zu, counted from 0, is %.*s; give %s", place, item_shown(item), item.at, settings[SOFT].due);
    return (int16_t)(negative ? -(int)magnitude : (int)magnitude);
}

/* Between two values stands white space, a comma, or both. */
static void take_soft(void)
{
    size_t count = 0;
    const char *at = settings[SOFT].given != NULL ? settings[SOFT].given : read_input();
    at += strspn(at, SPACES);
    for (int more = *at != 0; more; count++) {
        struct item item = item_up_to(at, "," SPACES);
        int16_t value = soft_value(count, item);
        if (count < MAX_N)
            soft[count] = value;
        at += item.len + strspn(item.at + item.len, SPACES);
        more = *at != 0;
        at += *at == ',';
        at += strspn(at, SPACES);
    }
    if (count != n)
        die("there are %zu soft values; give n = %zu of them", count, n);
}

/* ---- the record */

/* Number i of the pairs' bytes: f and e by turns. */
static unsigned part(size_t i)
{
    return pairs[2 * i] + 256u * pairs[2 * i + 1];
}

/* The first pair that breaks a rule, and which. */
_Noreturn static void explain_pairs(void)
{
    for (size_t i = 0; 2 * i < pairs_len; i += 2) {
        unsigned f = part(i), e = part(i + 1);
        if (f >= n || !(map[f / 8] >> (f % 8) & 1))
            die("pair %u:%u: %u is no frozen position; give pairs f:e with f frozen and e below f", f, e, f);
        if (e >= f)
            die("pair %u:%u: %u is not below %u; give pairs f:e with f frozen and e below f", f, e, e, f);
        if (i > 0 && (f < part(i - 2) || (f == part(i - 2) && e <= part(i - 1))))
            die("pair %u:%u comes behind %u:%u; give the pairs rising by f, then by e, each once", f, e, part(i - 2), part(i - 1));
    }
    die("the library refuses the pairs; build this tool with that library");
}

/* What a refusal of the writer means. What else it refuses for cannot come with settings that
 * were taken. */
_Noreturn static void explain(uint32_t refusal)
{
    unsigned long m = number[M], list = number[LIST], stop = number[STOP];
    switch (refusal) {
    case CALDURREX_BAD_M: die("m=%lu is out of range; give %s", m, settings[M].due);
    case CALDURREX_BAD_LIST_SIZE: die("list=%lu is out of range; give %s", list, settings[LIST].due);
    case CALDURREX_BAD_STOP: die("stop=%lu is above n = %zu; give %s", stop, n, settings[STOP].due);
    case CALDURREX_BAD_PAIRS: explain_pairs();
    default: die("the library refuses with %lu; build this tool with that library", (unsigned long)refusal);
    }
}

static void take_settings(void)
{
    if (settings[M].given == NULL)
        die("m is not given; give %s", settings[M].due);
    number[M] = setting_number(&settings[M], 0);
    if (number[M] < 2 || number[M] > 10)
        explain(CALDURREX_BAD_M);
    n = (size_t)1 << number[M];
    number[LIST] = setting_number(&settings[LIST], 4);
    number[STOP] = setting_number(&settings[STOP], (uint32_t)n);
    number[FRAME] = setting_number(&settings[FRAME], 0);
    take_frozen();
    take_pairs();
    take_soft();
}

int main(int argc, char **argv)
{
    static uint8_t record[CALDURREX_RECORD_BYTES];
    settings_open("make_record", settings, SETTINGS);
    if (settings_help(argc, argv))
        return show_usage();
    settings_collect(argc, argv);
    take_settings();
    struct caldurrex_length answer =
        caldurrex_write_job(number[M], settings[ARIKAN].given != NULL, map, (n + 7) / 8, pairs, pairs_len, number[LIST],
                            number[STOP], number[FRAME], soft, n, record, sizeof record);
    if (answer.refusal != 0)
        explain(answer.refusal);
    /* A pipe that nobody reads is an output that cannot be written. */
    signal(SIGPIPE, SIG_IGN);
    if (fwrite(record, 1, answer.length, stdout) != answer.length || fflush(stdout) != 0)
        die("standard output cannot be written (%s); give it a place that takes the record", strerror(errno));
    return 0;
}
