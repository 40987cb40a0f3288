#include "page_check.h"

#include "draw.h"
#include "run_program.h"

#include <stdio.h>
#include <stdlib.h>
#include <string.h>

/* Where the feed is drawn, longer streams do not come byte by byte, and those of more lines not
 * record by record. */
enum { BYTES_ONE_BY_ONE = 200, LINES_ONE_BY_ONE = 100 };

/* Drawn pieces at most, and pieces in any run; what is behind them comes at once. */
enum { DRAWN_PIECES = 50, MOST_PIECES = REFERENCE_RESULT_BYTES };

/* Bytes of a stream that a failure shows. */
enum { SHOWN = 96 };

static const char *program;
static unsigned long seed, streams, runs;
static enum feed fed;

/* The page by the rules: its lines before the last one, the bytes that decide each of them, whether
 * a refusal is among them. */
static char page[PAGE_ROOM];
static size_t page_len, lines, needs[PAGE_LINES];
static int refused;

void page_check_open(const char *path, unsigned long number)
{
    program = path;
    seed = number;
}

unsigned long page_streams_tried(void)
{
    return streams;
}

unsigned long page_runs(void)
{
    return runs;
}

/* ---- failures */

static void print_bytes(const char *title, const uint8_t *bytes, size_t len)
{
    printf("  %s", title);
    for (size_t i = 0; i < len && i < SHOWN; i++)
        printf(" %02x", bytes[i]);
    printf("%s\n", len > SHOWN ? " .." : "");
}

void page_fail(const struct page_stream *s, const char *what)
{
    printf("compare_page: %s\n  %zu bytes, %s: %zu good records, then %s\n", what, s->len, page_feed_name[fed],
           s->records, stream_tail_name[s->tail]);
    print_bytes("they begin", s->bytes, s->len);
    print_bytes("the tail", s->bytes + s->tail_at, s->len - s->tail_at);
    printf("compare_page: FAILED at stream %lu, run %lu (seed %lu)\n", streams, runs, seed);
    exit(1);
}

/* ---- the page by the rules */

static void make_page(const struct page_stream *s)
{
    page_len = reference_page(s->bytes, s->len, page, needs);
    lines = page_len / PAGE_LINE - 1;
    refused = lines > 0 && page[(lines - 1) * PAGE_LINE] == 'r';
}

/* What it is refused with, 0 if it is not. */
static uint32_t page_refusal(void)
{
    return refused ? (uint32_t)strtoul(page + (lines - 1) * PAGE_LINE + strlen("refused "), NULL, 10) : 0;
}

static void compare_with_making(const struct page_stream *s)
{
    uint32_t refusal = stream_refusal(s);
    size_t made = s->records + (s->tail != TAIL_NOTHING);
    if (refusal == RESULT_UNKNOWN ? lines < s->records : lines != made || page_refusal() != refusal)
        page_fail(s, "the reference's page ends otherwise than the stream was made for");
}

/* ---- pieces */

/* What must be printed once so many bytes were read: with a refusal the last line too. */
static size_t due_at(size_t end)
{
    size_t line = 0;
    while (line < lines && needs[line] <= end)
        line++;
    return PAGE_LINE * (line + (refused && line == lines));
}

/* Mostly next to a place where a line is decided. */
static size_t draw_end(size_t end)
{
    static const size_t longest[5] = {1, 4, 30, 500, 70000};
    size_t line = 0, step = 1 + draw_below(longest[draw_below(5)]);
    while (line < lines && needs[line] < end + step)
        line++;
    size_t near = line < lines ? needs[line] + draw_below(3) - 1 : 0;
    return near > end && draw_below(2) ? near : end + step;
}

static size_t next_end(enum feed feed, size_t piece, size_t end, size_t len)
{
    size_t next = len;
    if (feed == BYTE_BY_BYTE)
        next = end + 1;
    else if (feed == RECORD_BY_RECORD && piece < lines)
        next = needs[piece];
    else if (feed == IN_DRAWN_PIECES && piece < DRAWN_PIECES)
        next = draw_end(end);
    return next < len ? next : len;
}

static size_t cut(const struct page_stream *s, enum feed feed, struct piece *pieces)
{
    size_t count = 0;
    for (size_t end = 0; feed != AT_ONCE && end < s->len && count < MOST_PIECES; count++) {
        end = next_end(feed, count, end, s->len);
        pieces[count] = (struct piece){end, due_at(end)};
    }
    return count;
}

/* ---- one run */

static void print_difference(const char *printed, size_t len)
{
    size_t at = 0, there = len < PAGE_ROOM ? len : PAGE_ROOM;
    while (at < page_len && at < there && page[at] == printed[at])
        at++;
    size_t line = at / PAGE_LINE * PAGE_LINE, left = there - line;
    printf("  %zu bytes must be printed, and %zu are; they differ in line %zu:\n  [%.*s]\n  [%.*s]\n", page_len, len,
           line / PAGE_LINE + 1, line < page_len ? PAGE_LINE - 1 : 0, page + line,
           (int)(left < PAGE_LINE ? left : PAGE_LINE - 1), printed + line);
}

static void run(const struct page_stream *s, enum feed feed)
{
    static struct piece pieces[MOST_PIECES];
    static char printed[PAGE_ROOM];
    size_t count = cut(s, feed, pieces), decided = refused ? needs[lines - 1] : s->len;
    size_t must_take = decided < s->len ? decided : s->len;
    runs++;
    fed = feed;
    struct run r = run_in_pieces(program, s->bytes, s->len, pieces, count, printed, sizeof printed);
    if (r.len != page_len || memcmp(page, printed, page_len) != 0) {
        print_difference(printed, r.len);
        page_fail(s, "another page is printed");
    }
    if (r.late)
        page_fail(s, "a line does not come while the program can wait for more, or the program takes no more");
    if (r.status != 0) {
        printf("  status %d%s\n", r.status, r.status > 256 ? ", 256 and the signal" : "");
        page_fail(s, "the program does not end with status 0");
    }
    if (r.taken != must_take) {
        printf("  %zu bytes must be read, and %zu are\n", must_take, r.taken);
        page_fail(s, "the program reads too much or too little");
    }
    page_tally_run(s, feed, count > 0 ? pieces[count - 1].due / PAGE_LINE : 0, s->len - r.taken);
}

/* ---- all that is tried with a stream */

static enum feed draw_feed(const struct page_stream *s)
{
    static const enum feed feeds[8] = {AT_ONCE, AT_ONCE, AT_ONCE, BYTE_BY_BYTE, BYTE_BY_BYTE, RECORD_BY_RECORD,
                                       IN_DRAWN_PIECES, IN_DRAWN_PIECES};
    enum feed feed = feeds[draw_below(8)];
    if (feed == BYTE_BY_BYTE && s->len > BYTES_ONE_BY_ONE)
        feed = RECORD_BY_RECORD;
    return feed == RECORD_BY_RECORD && lines > LINES_ONE_BY_ONE ? IN_DRAWN_PIECES : feed;
}

void page_try(struct page_stream *s, enum feed feed)
{
    static char before[PAGE_ROOM];
    streams++;
    make_page(s);
    compare_with_making(s);
    run(s, feed);
    page_tally(s, page, lines);
    if (s->count == 0 || draw_below(2))
        return;
    memcpy(before, page, page_len);
    stream_change_packed(s);
    size_t len = page_len;
    make_page(s);
    if (page_len != len || memcmp(before, page, len) != 0)
        page_fail(s, "the reference's page is another with other packed bits");
    run(s, draw_feed(s));
    page_tally_changed();
}

void page_try_drawn(struct page_stream *s)
{
    make_page(s);
    page_try(s, draw_feed(s));
}
