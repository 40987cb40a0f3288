#include "page_tally.h"

#include "result_events.h"

#include <stdio.h>
#include <stdlib.h>

/* ---- tails */

enum { FIRST, BEHIND_SOME, BEHIND_999, BEHIND_1000, PLACES };
static const char *const place_name[PLACES] = {"first", "behind some", "behind 999", "behind 1,000"};
static unsigned long tails[TAILS][PLACES];

/* The faults of a tail in the order of their refusals. Fewer than three bytes have no place among
 * them: a bad map is 14 there too, but a bad m is not 1. */
enum { ORDER = 6 };
static const uint32_t order[ORDER] = {23, 14, 1, 4, 13, 22};
static struct tally_both both;
enum { WITH_BAD_MAP, WITH_BAD_M, SHORT_HEADS };
static const char *const short_head_name[SHORT_HEADS] = {"a bad map", "a bad m"};
static unsigned long short_heads[SHORT_HEADS];

/* Records cut to one byte and more, as the first and behind others. */
enum { CUTS = 50 };
static unsigned long cuts[2][CUTS];

static void count_tail(const struct page_stream *s)
{
    unsigned too_many = s->records == PAGE_RECORDS;
    size_t tail_len = s->len - s->tail_at;
    tails[s->tail][s->records == 0 ? FIRST : too_many ? BEHIND_1000 : s->records < 999 ? BEHIND_SOME : BEHIND_999]++;
    if (stream_refusal(s) == 13 && tail_len <= CUTS)
        cuts[s->records > 0][tail_len - 1]++;
    if (too_many || tail_len >= 3) {
        tally_faults(&both, too_many | s->faults << 1);
    } else {
        short_heads[WITH_BAD_MAP] += s->tail == TAIL_MAP;
        short_heads[WITH_BAD_M] += s->tail == TAIL_TWO_BYTES && s->faults & FAULT_M;
    }
}

/* ---- records and numbers */

enum value {
    FRAME_0, FRAME_1, FRAME_9, FRAME_10, FRAME_HIGHEST,
    SCORE_LOWEST, SCORE_NEGATIVE, SCORE_0, SCORE_HIGHEST,
    DIFFERENCE_NONE, DIFFERENCE_0, DIFFERENCE_1, DIFFERENCE_FAR, DIFFERENCE_HIGHEST,
    VALUES
};
static const char *const value_name[VALUES] = {
    [FRAME_0] = "frame number 0", [FRAME_1] = "1", [FRAME_9] = "9", [FRAME_10] = "10", [FRAME_HIGHEST] = "2^32 - 1",
    [SCORE_LOWEST] = "score -2^31", [SCORE_NEGATIVE] = "negative", [SCORE_0] = "0", [SCORE_HIGHEST] = "2^31 - 1",
    [DIFFERENCE_NONE] = "difference -", [DIFFERENCE_0] = "0", [DIFFERENCE_1] = "1",
    [DIFFERENCE_FAR] = "2^31 and more", [DIFFERENCE_HIGHEST] = "2^32 - 1",
};
static unsigned long values[VALUES];
enum { MS = RESULT_MAX_M - RESULT_MIN_M + 1, SHAPES = MS * RESULT_MAX_ROWS * RESULT_FIELD_SETS };
static unsigned long shapes[MS][RESULT_MAX_ROWS][RESULT_FIELD_SETS];

/* A line of a record that is not refused. */
static void count_values(const char *line)
{
    unsigned long frame;
    long score;
    char text[16];
    if (sscanf(line, "%lu %*u %ld %15s", &frame, &score, text) != 3)
        abort();
    unsigned long difference = strtoul(text, NULL, 10);
    int some = text[0] != '-';
    values[FRAME_0] += frame == 0;
    values[FRAME_1] += frame == 1;
    values[FRAME_9] += frame == 9;
    values[FRAME_10] += frame == 10;
    values[FRAME_HIGHEST] += frame == UINT32_MAX;
    values[SCORE_LOWEST] += score == INT32_MIN;
    values[SCORE_NEGATIVE] += score < 0;
    values[SCORE_0] += score == 0;
    values[SCORE_HIGHEST] += score == INT32_MAX;
    values[DIFFERENCE_NONE] += !some;
    values[DIFFERENCE_0] += some && difference == 0;
    values[DIFFERENCE_1] += some && difference == 1;
    values[DIFFERENCE_FAR] += some && difference > INT32_MAX;
    values[DIFFERENCE_HIGHEST] += some && difference == UINT32_MAX;
}

static void count_shapes(const struct page_stream *s)
{
    for (size_t i = 0; i < s->records; i++) {
        const uint8_t *head = s->bytes + s->places[i].at;
        shapes[head[1] - RESULT_MIN_M][head[2] - 1][head[0]]++;
    }
}

/* ---- streams and runs */

enum { ABOVE_4096, ABOVE_A_PIPE, LONGEST, LENGTHS };
static const size_t least_length[LENGTHS] = {4097, 65537, (size_t)PAGE_RECORDS * REFERENCE_RESULT_BYTES};
static const char *const length_name[LENGTHS] = {"above 4,096", "above 65,536", "4,235,000 and more"};
static unsigned long lengths[LENGTHS];

const char *const page_feed_name[FEEDS] = {"at once", "byte by byte", "record by record", "in drawn pieces"};
static unsigned long feeds[FEEDS];

enum { AWAITED, CHANGED, RUN_EVENTS };
static const char *const event_name[RUN_EVENTS] = {"lines awaited", "runs with other packed bits"};
static unsigned long events[RUN_EVENTS];

/* With 13 all is read. */
enum { LEAVING = 5 };
static const uint32_t leaving[LEAVING] = {23, 14, 1, 4, 22};
static const char *const leaving_name[LEAVING] = {"23", "14", "1", "4", "22"};
static unsigned long left[LEAVING];

void page_tally(const struct page_stream *s, const char *page, size_t lines)
{
    count_tail(s);
    count_shapes(s);
    for (size_t i = 0; i < lines; i++)
        if (page[i * PAGE_LINE] != 'r')
            count_values(page + i * PAGE_LINE);
    for (size_t i = 0; i < LENGTHS; i++)
        lengths[i] += s->len >= least_length[i];
}

void page_tally_run(const struct page_stream *s, enum feed feed, size_t awaited, size_t unread)
{
    feeds[feed]++;
    events[AWAITED] += awaited;
    for (size_t i = 0; i < LEAVING; i++)
        left[i] += unread > 0 && stream_refusal(s) == leaving[i];
}

void page_tally_changed(void)
{
    events[CHANGED]++;
}

/* ---- the report */

static int print_tails(void)
{
    int reached = 1;
    printf("%-27s", "behind the good records");
    for (size_t place = 0; place < PLACES; place++)
        printf(" %12s", place_name[place]);
    printf("\n");
    for (size_t tail = 0; tail < TAILS; tail++) {
        printf("%-27s", stream_tail_name[tail]);
        for (size_t place = 0; place < PLACES; place++) {
            printf(" %12lu", tails[tail][place]);
            reached &= tails[tail][place] >= TALLY_FEW;
        }
        printf("\n");
    }
    return reached;
}

int page_tally_report(void)
{
    int reached = print_tails();
    reached &= tally_print_order(&both, order, ORDER);
    reached &= tally_print_named("fewer than three bytes with", short_head_name, short_heads, SHORT_HEADS);
    reached &= result_print_least("cut to 1 to 50 bytes, the first record and another", &cuts[0][0], 2 * CUTS);
    reached &= result_print_least("good records: by m, row count and fields", &shapes[0][0][0], SHAPES);
    reached &= tally_print_named("printed:", value_name, values, VALUES);
    reached &= tally_print_named("streams by length:", length_name, lengths, LENGTHS);
    reached &= tally_print_named("runs:", page_feed_name, feeds, FEEDS);
    reached &= tally_print_named("in these:", event_name, events, RUN_EVENTS);
    return reached & tally_print_named("bytes left unread behind", leaving_name, left, LEAVING);
}
