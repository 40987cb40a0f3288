#include "page_limits.h"

#include "draw.h"
#include "page_check.h"

static struct page_stream s;
static struct result_record r;

static void try_all_feeds(void)
{
    for (int feed = 0; feed < FEEDS; feed++)
        page_try(&s, (enum feed)feed);
}

/* All but byte by byte, for a long stream. */
static void try_wide_feeds(void)
{
    page_try(&s, AT_ONCE);
    page_try(&s, RECORD_BY_RECORD);
    page_try(&s, IN_DRAWN_PIECES);
}

/* ---- m, row count, fields */

static void try_shapes(void)
{
    for (uint32_t m = RESULT_MIN_M; m <= RESULT_MAX_M; m++)
        for (unsigned fields = 0; fields < RESULT_FIELD_SETS; fields++) {
            stream_start(&s);
            for (uint32_t rows = 1; rows <= RESULT_MAX_ROWS; rows++) {
                result_record_good(&r, m, rows, fields);
                stream_add(&s, &r);
            }
            try_wide_feeds();
        }
}

/* ---- numbers */

/* A record with this frame number and these scores, with a ceiling or without one. */
static void add_numbers(uint32_t frame, size_t rows, int64_t first, int64_t second)
{
    size_t ceiling = first < INT32_MAX && draw_below(3) == 0;
    result_record_good(&r, 2, (uint32_t)rows, (frame > 0 ? RESULT_FRAME : 0) | (ceiling ? RESULT_CEILING : 0));
    r.says.frame = frame;
    r.says.scores[0] = (int32_t)first;
    for (size_t row = 1; row < rows; row++)
        r.says.scores[row] = (int32_t)second;
    r.says.ceiling = ceiling ? result_number_above((int32_t)first) : (int32_t)first;
    result_pack(&r);
    stream_add(&s, &r);
}

/* 0, 1, and the last number and the first one with each count of digits. */
enum { DIGITS = 10, DIGIT_LIMITS = 2 * DIGITS };
static int64_t digit_limit(size_t which)
{
    int64_t power = 1;
    for (size_t i = 0; i < which / 2; i++)
        power *= 10;
    return which % 2 ? power : power - 1;
}

static void try_frames(void)
{
    stream_start(&s);
    for (size_t which = 0; which < DIGIT_LIMITS; which++)
        add_numbers((uint32_t)digit_limit(which), 1, 0, 0);
    for (unsigned bit = 0; bit < 32; bit++)
        add_numbers(1u << bit, 2, 0, 0);
    add_numbers(UINT32_MAX, 1, 0, 0);
    add_numbers(UINT32_MAX - 1, 1, 0, 0);
    try_all_feeds();
}

static void try_scores(void)
{
    stream_start(&s);
    for (size_t which = 0; which < DIGIT_LIMITS; which++) {
        int64_t limit = digit_limit(which);
        add_numbers((uint32_t)which, 1, limit, 0);
        add_numbers((uint32_t)which, 1, -limit, 0);
        add_numbers((uint32_t)which, 2, -limit, -limit);
    }
    for (size_t which = 0; which < END_NUMBERS; which++)
        add_numbers(0, 1, result_end_number(which), 0);
    try_all_feeds();
}

/* As the difference of the first score and the others: from the lowest score up, to the highest
 * one, and below 0 as far as it goes. */
static void add_difference(int64_t difference)
{
    int64_t negative = -1 - difference < INT32_MIN ? INT32_MIN : -1 - difference;
    size_t rows = 2 + draw_below(3);
    add_numbers(1, rows, INT32_MIN + difference, INT32_MIN);
    add_numbers(1, rows, INT32_MAX, INT32_MAX - difference);
    add_numbers(1, rows, negative + difference, negative);
}

static void try_differences(void)
{
    stream_start(&s);
    for (size_t which = 0; which < DIGIT_LIMITS; which++)
        add_difference(digit_limit(which));
    for (unsigned bit = 0; bit < 32; bit++)
        add_difference((int64_t)1 << bit);
    add_difference(UINT32_MAX);
    add_difference(INT32_MAX);
    for (size_t i = 0; i < END_NUMBERS; i++)
        for (size_t j = 0; j <= i; j++)
            add_numbers(0, 2, result_end_number(i), result_end_number(j));
    try_all_feeds();
}

/* ---- how many, and how long */

static void try_counts(void)
{
    static const size_t counts[13] = {0, 1, 2, 9, 10, 11, 99, 100, 101, 998, 999, 1000, 1001};
    for (size_t which = 0; which < 2 * 13; which++) {
        size_t count = counts[which % 13];
        stream_start(&s);
        stream_add_drawn(&s, count < PAGE_RECORDS ? count : PAGE_RECORDS);
        if (count > PAGE_RECORDS)
            stream_end_drawn(&s, TAIL_GOOD);
        page_try(&s, which < 13 ? AT_ONCE : RECORD_BY_RECORD);
    }
    stream_start(&s);
    try_all_feeds();
}

static void draw_longest(void)
{
    result_record_good(&r, RESULT_MAX_M, RESULT_MAX_ROWS, RESULT_FRAME | RESULT_CEILING);
}

static void try_longest(void)
{
    stream_start(&s);
    draw_longest();
    stream_add(&s, &r);
    try_all_feeds();
    while (s.records < PAGE_RECORDS) {
        draw_longest();
        stream_add(&s, &r);
    }
    try_wide_feeds();
    draw_longest();
    stream_end(&s, &r, TAIL_GOOD);
    page_try(&s, AT_ONCE);
}

/* A thousand of the shortest records, and a byte more, which may begin a record or not. */
static void try_one_byte_more(void)
{
    static const uint8_t bytes[16] = {0, 1, 2, 3, 4, 5, 8, 10, 16, 32, 48, 64, 127, 128, 254, 255};
    for (size_t which = 0; which < 16; which++) {
        stream_start(&s);
        while (s.records < PAGE_RECORDS) {
            result_record_good(&r, RESULT_MIN_M, 1, 0);
            stream_add(&s, &r);
        }
        result_record_cut(&r, 1, 0);
        r.bytes[0] = bytes[which];
        stream_end(&s, &r, bytes[which] < 4 ? TAIL_ONE_BYTE : TAIL_MAP);
        page_try_drawn(&s);
    }
}

void page_try_limits(void)
{
    try_shapes();
    try_frames();
    try_scores();
    try_differences();
    try_counts();
    try_longest();
    try_one_byte_more();
}
