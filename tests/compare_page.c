/*
 * Runs the shift log on many streams of result records and compares every byte of its page with
 * what the rules say. The input comes through a pipe, at once or in pieces: each line must be
 * there before the next record comes, and nothing be read behind the byte that decides the page.
 *
 *   compare_page PATH [seed [streams]]
 *
 * A run with the same seed and streams makes the same ones. So many are drawn at random; those on
 * both sides of every limit come before them.
 */
#include "draw.h"
#include "page_check.h"
#include "page_limits.h"

#include <stdio.h>
#include <stdlib.h>
#include <string.h>

enum { USUAL_STREAMS = 600 };

static struct page_stream s;

/* ---- pages that are written here */

#define SPACES "                          "
#define REFUSED_SPACES SPACES "       "
#define NONE "         0      0" SPACES "\n"
#define ONE "         0      1            5            -\n"
#define ONE_SUM "         1      1" SPACES "\n"

static const struct {
    size_t len;
    const char *input, *page;
} examples[] = {
    {0, "", NONE},
    {13, "\x00\x02\x02\x0d\0\0\0\x0b\0\0\0\x04\x00",
     "         0      2           13            2\n"
     "         1      2" SPACES "\n"},
    {8, "\x00\x02\x01\x05\0\0\0\x06", ONE ONE_SUM},
    {9, "\x00\x02\x01\x05\0\0\0\x06\x00", ONE "refused 13" REFUSED_SPACES "\n" ONE_SUM},
    {16, "\x00\x02\x01\x05\0\0\0\x06\x00\x02\x01\x05\0\0\0\xff", ONE ONE "         2      2" SPACES "\n"},
    {12, "\x01\x02\x01\x07\0\0\0\x05\0\0\0\x08",
     "         7      1            5            -\n" ONE_SUM},
    {16, "\x03\x02\x01\xff\xff\xff\xff\xff\xff\xff\x7f\0\0\0\x80\x02",
     "4294967295      1  -2147483648            -\n" ONE_SUM},
    {13, "\x00\x02\x02\xff\xff\xff\x7f\0\0\0\x80\x01\x02",
     "         0      2   2147483647   4294967295\n"
     "         1      2" SPACES "\n"},
    {23, "\x03\x04\x02\x01\0\0\0\x02\0\0\0\xfd\xff\xff\xff\xfd\xff\xff\xff\x01\x02\x04\x80",
     "         1      2           -3            0\n"
     "         1      2" SPACES "\n"},
    {3, "\x04\x02\x01", "refused 14" REFUSED_SPACES "\n" NONE},
    {1, "\x80", "refused 14" REFUSED_SPACES "\n" NONE},
    {1, "\x03", "refused 13" REFUSED_SPACES "\n" NONE},
    {2, "\x00\x01", "refused 13" REFUSED_SPACES "\n" NONE},
    {3, "\x00\x01\x00", "refused 1 " REFUSED_SPACES "\n" NONE},
    {3, "\x00\x0b\x01", "refused 1 " REFUSED_SPACES "\n" NONE},
    {3, "\x00\x02\x00", "refused 4 " REFUSED_SPACES "\n" NONE},
    {20, "\x00\x02\x01\x05\0\0\0\x06\x00\x02\x21\0\0\0\0\0\0\0\0\0", ONE "refused 4 " REFUSED_SPACES "\n" ONE_SUM},
    {7, "\x00\x02\x01\x05\0\0\0", "refused 13" REFUSED_SPACES "\n" NONE},
    {12, "\x01\x02\x01\0\0\0\0\x05\0\0\0\x08", "refused 22" REFUSED_SPACES "\n" NONE},
    {12, "\x02\x02\x01\x05\0\0\0\x05\0\0\0\x0f", "refused 22" REFUSED_SPACES "\n" NONE},
    {12, "\x02\x02\x01\x04\0\0\0\x05\0\0\0\x0f", "refused 22" REFUSED_SPACES "\n" NONE},
    {21, "\x00\x02\x01\x05\0\0\0\x06\x00\x02\x02\x05\0\0\0\x06\0\0\0\x01\x02",
     ONE "refused 22" REFUSED_SPACES "\n" ONE_SUM},
    {16, "\x00\x02\x01\x05\0\0\0\x06\x08\x02\x01\x05\0\0\0\x06", ONE "refused 14" REFUSED_SPACES "\n" ONE_SUM},
};

static void try_example(size_t len, const char *input, const char *page, enum feed feed)
{
    static char by_reference[PAGE_ROOM];
    static size_t needs[PAGE_LINES];
    stream_take(&s, (const uint8_t *)input, len);
    size_t page_len = reference_page(s.bytes, s.len, by_reference, needs);
    if (page_len != strlen(page) || memcmp(page, by_reference, page_len) != 0)
        page_fail(&s, "the reference's page is not the one written here");
    page_try(&s, feed);
}

static void try_examples(void)
{
    for (size_t i = 0; i < sizeof examples / sizeof examples[0]; i++)
        for (int feed = 0; feed < FEEDS; feed++)
            try_example(examples[i].len, examples[i].input, examples[i].page, (enum feed)feed);
}

/* ---- random streams */

static size_t draw_records(void)
{
    switch (draw_below(8)) {
    case 0: return 0;
    case 1: return PAGE_RECORDS - draw_below(3);
    case 2: return draw_below(200);
    default: return draw_below(12);
    }
}

static void try_drawn(unsigned long streams)
{
    for (; streams > 0; streams--) {
        stream_start(&s);
        stream_add_drawn(&s, draw_records());
        stream_end_drawn(&s, (enum tail)draw_below(TAILS));
        stream_put_behind(&s);
        page_try_drawn(&s);
    }
}

/* Nothing but random bytes; those of half of them are small numbers, as a head has. */
static void try_random_bytes(unsigned long streams)
{
    for (; streams > 0; streams--) {
        uint8_t bytes[512];
        size_t len = draw_below(draw_below(2) ? 16 : sizeof bytes), small = draw_below(2);
        draw_bytes(bytes, len);
        for (size_t i = 0; small && i < len; i++)
            bytes[i] &= 3;
        stream_take(&s, bytes, len);
        page_try_drawn(&s);
    }
}

int main(int argc, char **argv)
{
    unsigned long seed = argc > 2 ? strtoul(argv[2], NULL, 10) : 1;
    unsigned long streams = argc > 3 ? strtoul(argv[3], NULL, 10) : USUAL_STREAMS;
    if (argc < 2) {
        fprintf(stderr, "usage: compare_page PATH [seed [streams]]\n");
        return 2;
    }
    printf("compare_page: %s, seed %lu, streams %lu, and those on both sides of every limit\n", argv[1], seed, streams);
    draw_seed(seed);
    page_check_open(argv[1], seed);
    try_examples();
    page_try_limits();
    page_try_damage();
    try_drawn(streams);
    try_random_bytes(streams / 3);
    if (!page_tally_report()) {
        printf("compare_page: FAILED: not all was reached (seed %lu)\n", seed);
        return 1;
    }
    printf("compare_page: the pages of %lu streams agree, in %lu runs (seed %lu)\n", page_streams_tried(), page_runs(),
           seed);
    return 0;
}
