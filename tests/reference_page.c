#include "reference_page.h"

#include "reference_result.h"

#include <stdio.h>

/* Map, m and row count: what tells how long a record is. */
enum { HEAD = 3 };

static size_t least(size_t x, size_t y)
{
    return x < y ? x : y;
}

/* By a head that is not refused: what its map announces, then a score and a packed row for each
 * row, which has no part of a byte. */
static size_t record_length(const uint8_t *head)
{
    size_t fields = head[0] % 2 + head[0] / 2, n = (size_t)1 << head[1], rows = head[2];
    return HEAD + 4 * fields + rows * (4 + (n < 8 ? 1 : n / 8));
}

/* The record in front of an input that is not empty. A reader who gets the head alone refuses it
 * with 13 if nothing is wrong with it. */
static struct reference_result read_first(const uint8_t *input, size_t len, int32_t *scores, size_t *need)
{
    struct reference_result r =
        reference_read_result_operator(input, least(len, HEAD), scores, REFERENCE_RESULT_ROWS);
    *need = r.refusal == 14 ? 1 : HEAD;
    if (r.refusal == 13 && len >= HEAD) {
        *need = record_length(input);
        r = reference_read_result_operator(input, least(len, *need), scores, REFERENCE_RESULT_ROWS);
    }
    if (r.refusal == 13)
        *need = len + 1;
    return r;
}

static int write_line(char *to, const struct reference_result *r, const int32_t *scores)
{
    char difference[24] = "-";
    if (r->refusal != 0)
        return sprintf(to, "refused %-35lu\n", (unsigned long)r->refusal);
    if (r->rows > 1)
        sprintf(difference, "%lld", (long long)scores[0] - scores[1]);
    return sprintf(to, "%10lu %6lu %12ld %12s\n", (unsigned long)r->frame, (unsigned long)r->rows, (long)scores[0],
                   difference);
}

size_t reference_page(const uint8_t *input, size_t len, char page[PAGE_ROOM], size_t needs[PAGE_LINES])
{
    size_t at = 0, records = 0, rows = 0;
    char *to = page;
    while (at < len) {
        int32_t scores[REFERENCE_RESULT_ROWS];
        size_t need = 1;
        struct reference_result r = {.refusal = 23};
        if (records < PAGE_RECORDS)
            r = read_first(input + at, len - at, scores, &need);
        at += need;
        needs[records] = at;
        to += write_line(to, &r, scores);
        if (r.refusal != 0)
            break;
        records++;
        rows += r.rows;
    }
    to += sprintf(to, "%10zu %6zu%26s\n", records, rows, "");
    return (size_t)(to - page);
}
