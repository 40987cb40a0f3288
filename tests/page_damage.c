#include "page_limits.h"

#include "draw.h"
#include "page_check.h"

enum { TIMES = 4 };

static struct page_stream s;
static struct result_record r;

/* ---- every tail in every place */

static void try_tail(enum tail tail, size_t records)
{
    stream_start(&s);
    stream_add_drawn(&s, records);
    stream_end_drawn(&s, tail);
    stream_put_behind(&s);
    page_try_drawn(&s);
}

static void try_tails(void)
{
    for (size_t i = 0; i < TIMES * TAILS; i++) {
        enum tail tail = (enum tail)(i % TAILS);
        try_tail(tail, 0);
        try_tail(tail, 1 + draw_below(12));
        try_tail(tail, PAGE_RECORDS - 1);
        try_tail(tail, PAGE_RECORDS);
    }
}

/* Every set of two faults and more. */
static void try_several(void)
{
    for (unsigned i = 0; i < TIMES << STREAM_FAULTS; i++) {
        unsigned faults = i % (1u << STREAM_FAULTS);
        if ((faults & (faults - 1)) == 0)
            continue;
        stream_start(&s);
        stream_add_drawn(&s, draw_below(3));
        stream_end_faulty(&s, faults);
        stream_put_behind(&s);
        page_try_drawn(&s);
    }
}

/* ---- heads */

/* One of the first three bytes of a good record is another one, for which it is refused. The record
 * is whole, or ends with the byte that tells. */
static void try_byte(size_t at, uint8_t byte, size_t tells)
{
    static const unsigned faults[3] = {FAULT_FIELD_MAP, FAULT_M, FAULT_ROWS};
    static const uint32_t refusals[3] = {14, 1, 4};
    static const enum tail tails[3] = {TAIL_MAP, TAIL_M, TAIL_ROWS};
    stream_start(&s);
    stream_add_drawn(&s, draw_below(3));
    result_record_any(&r, RESULT_MIN_M + (uint32_t)draw_below(3));
    r.bytes[at] = byte;
    r.faults = faults[at];
    r.refusal = refusals[at];
    if (draw_below(2))
        r.len = tells;
    stream_end(&s, &r, tails[at]);
    page_try_drawn(&s);
}

static void try_heads(void)
{
    for (unsigned byte = 0; byte < 256; byte++) {
        if (byte >= RESULT_FIELD_SETS)
            try_byte(0, (uint8_t)byte, 1);
        if (byte < RESULT_MIN_M || byte > RESULT_MAX_M)
            try_byte(1, (uint8_t)byte, 3);
        if (byte < 1 || byte > RESULT_MAX_ROWS)
            try_byte(2, (uint8_t)byte, 3);
    }
}

/* ---- records cut at every byte */

static void try_cuts(uint32_t m, uint32_t rows, unsigned fields, size_t records)
{
    for (size_t len = 0; len < result_need(m, rows, fields); len++) {
        stream_start(&s);
        stream_add_drawn(&s, records);
        result_record_good(&r, m, rows, fields);
        stream_end_cut(&s, &r, len);
        page_try_drawn(&s);
    }
}

/* All that a record would be refused with 22 for may be there: it is 13 until its last byte is. */
static void try_broken_cuts(enum result_fault fault)
{
    result_record_good(&r, 3, 3, RESULT_FRAME | RESULT_CEILING);
    result_break(&r, fault);
    for (size_t len = 1; len < r.len; len++) {
        stream_start(&s);
        stream_add_drawn(&s, draw_below(2));
        stream_end_cut(&s, &r, len);
        page_try_drawn(&s);
    }
}

static void try_all_cuts(void)
{
    static const struct {
        uint32_t m, rows;
        unsigned fields;
    } shapes[9] = {{2, 1, 0}, {2, 1, 3}, {2, 5, 3}, {3, 1, 1}, {3, 2, 2}, {5, 4, 1}, {6, 5, 2}, {7, 2, 3}, {10, 2, 3}};
    for (size_t i = 0; i < 9; i++) {
        try_cuts(shapes[i].m, shapes[i].rows, shapes[i].fields, 0);
        try_cuts(shapes[i].m, shapes[i].rows, shapes[i].fields, 1 + draw_below(3));
    }
    try_cuts(2, 1, 0, PAGE_RECORDS - 1);
    try_cuts(2, 1, 3, PAGE_RECORDS - 1);
    for (int fault = 0; fault < RESULT_FAULTS; fault++)
        try_broken_cuts((enum result_fault)fault);
}

/* ---- scores that rise */

/* At every row behind the first one, and nowhere else. */
static void try_rises(void)
{
    static const uint32_t rows[4] = {2, 3, 5, RESULT_MAX_ROWS};
    for (size_t i = 0; i < 4; i++)
        for (uint32_t at = 1; at < rows[i]; at++) {
            stream_start(&s);
            stream_add_drawn(&s, draw_below(3));
            uint32_t m = result_draw_m();
            result_record_good(&r, m, rows[i], result_draw_fields());
            result_rise(&r.says, at);
            result_pack(&r);
            r.faults = FAULT_RESULT;
            r.refusal = 22;
            stream_end(&s, &r, TAIL_RISING);
            stream_put_behind(&s);
            page_try_drawn(&s);
        }
}

void page_try_damage(void)
{
    try_tails();
    try_several();
    try_heads();
    try_all_cuts();
    try_rises();
}
