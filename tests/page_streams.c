#include "page_streams.h"

#include "draw.h"

#include <stdlib.h>
#include <string.h>

enum { HEAD = 3, FEW = 50 };

const char *const stream_tail_name[TAILS] = {
    [TAIL_NOTHING] = "nothing", [TAIL_GOOD] = "a good record", [TAIL_MAP] = "a bad map",
    [TAIL_ONE_BYTE] = "one byte", [TAIL_TWO_BYTES] = "two bytes", [TAIL_M] = "a bad m",
    [TAIL_ROWS] = "a bad row count", [TAIL_HEAD_ALONE] = "a head alone", [TAIL_CUT_IN_FIELDS] = "cut in the fields",
    [TAIL_CUT_IN_SCORES] = "cut in the scores", [TAIL_CUT_IN_PACKED] = "cut in the packed bits",
    [TAIL_RISING] = "rising scores", [TAIL_CEILING_BELOW] = "a ceiling below",
    [TAIL_CEILING_AS_ABSENT] = "the first score as ceiling", [TAIL_FRAME_AS_ABSENT] = "frame number 0",
    [TAIL_SEVERAL_FAULTS] = "several faults", [TAIL_ANY_BYTES] = "any bytes",
};

static struct result_record drawn;

/* ---- bytes and records one behind the other */

void stream_start(struct page_stream *s)
{
    s->len = s->records = s->tail_at = s->count = 0;
    s->tail = TAIL_NOTHING;
    s->faults = s->refusal = 0;
}

static void put(struct page_stream *s, const uint8_t *bytes, size_t len)
{
    if (len > STREAM_ROOM - s->len)
        abort();
    memcpy(s->bytes + s->len, bytes, len);
    s->len += len;
}

void stream_take(struct page_stream *s, const uint8_t *bytes, size_t len)
{
    stream_start(s);
    put(s, bytes, len);
    s->tail = TAIL_ANY_BYTES;
    s->refusal = RESULT_UNKNOWN;
}

/* The first len bytes of a record with a good head. */
static void put_record(struct page_stream *s, const struct result_record *r, size_t len)
{
    size_t packed = s->len + result_open_bytes(r->says.rows, r->fields);
    size_t end = s->len + result_need(r->says.m, r->says.rows, r->fields);
    s->places[s->count++] = (struct stream_record){s->len, packed, end};
    put(s, r->bytes, len);
}

void stream_add(struct page_stream *s, const struct result_record *r)
{
    put_record(s, r, r->len);
    s->records++;
    s->tail_at = s->len;
}

/* At most four rows of at most 16 positions. */
static void draw_small(void)
{
    uint32_t m = RESULT_MIN_M + (uint32_t)draw_below(3), rows = 1 + (uint32_t)draw_below(4);
    result_record_good(&drawn, m, rows, result_draw_fields());
}

void stream_add_drawn(struct page_stream *s, size_t count)
{
    for (size_t i = 0; i < count; i++) {
        if (count > FEW)
            draw_small();
        else
            result_record_any(&drawn, result_draw_m());
        stream_add(s, &drawn);
    }
}

/* ---- tails */

void stream_end(struct page_stream *s, const struct result_record *r, enum tail tail)
{
    s->tail = tail;
    s->faults = r->faults;
    s->refusal = r->refusal;
    if (tail == TAIL_ANY_BYTES || r->faults & (FAULT_FIELD_MAP | FAULT_M | FAULT_ROWS))
        put(s, r->bytes, r->len);
    else
        put_record(s, r, r->len);
}

/* Where a record of which some bytes are missing was cut. */
static enum tail tail_of_cut(const struct result_record *r, size_t len)
{
    size_t packed = result_open_bytes(r->says.rows, r->fields), scores = packed - 4 * r->says.rows;
    if (len <= HEAD) {
        static const enum tail tails[HEAD + 1] = {TAIL_NOTHING, TAIL_ONE_BYTE, TAIL_TWO_BYTES, TAIL_HEAD_ALONE};
        return tails[len];
    }
    return len < scores ? TAIL_CUT_IN_FIELDS : len < packed ? TAIL_CUT_IN_SCORES : TAIL_CUT_IN_PACKED;
}

void stream_end_cut(struct page_stream *s, const struct result_record *r, size_t len)
{
    s->tail = tail_of_cut(r, len);
    if (s->tail == TAIL_NOTHING)
        return;
    s->faults = len < HEAD ? 0 : r->faults | FAULT_LENGTH;
    s->refusal = 13;
    put_record(s, r, len);
}

/* Anywhere behind the head; but what is refused with 22 keeps all that it would be refused for. */
static void cut_spoilt(struct result_record *r)
{
    size_t from = r->faults & FAULT_RESULT ? result_open_bytes(r->says.rows, r->fields) : HEAD;
    r->len = from + draw_below(r->len - from);
    r->faults |= FAULT_LENGTH;
    if (r->refusal == 0 || r->refusal == 22)
        r->refusal = 13;
}

/* The record is refused for its first bytes, tells of them, whatever stands behind these: nothing, a
 * part of the rest, or all of it. */
static void end_with_bad_head(struct page_stream *s, enum tail tail, unsigned fault, size_t tells)
{
    result_record_spoil(&drawn, fault);
    const size_t lengths[3] = {tells, tells + draw_below(drawn.len - tells), drawn.len};
    drawn.len = lengths[draw_below(3)];
    stream_end(s, &drawn, tail);
}

/* Scores rise only where there are two. */
static void end_with_break(struct page_stream *s, enum tail tail, enum result_fault fault)
{
    uint32_t m = result_draw_m(), rows = result_draw_rows(m);
    result_record_good(&drawn, m, fault == RISING && rows == 1 ? 2 : rows, result_draw_fields());
    result_break(&drawn, fault);
    stream_end(s, &drawn, tail);
}

void stream_end_faulty(struct page_stream *s, unsigned faults)
{
    result_record_any(&drawn, result_draw_m());
    result_record_spoil(&drawn, faults & ~(unsigned)FAULT_LENGTH);
    if (faults & FAULT_LENGTH)
        cut_spoilt(&drawn);
    stream_end(s, &drawn, TAIL_SEVERAL_FAULTS);
}

/* Two of them, and often more. */
static unsigned draw_faults(void)
{
    size_t one = draw_below(STREAM_FAULTS), other = (one + 1 + draw_below(STREAM_FAULTS - 1)) % STREAM_FAULTS;
    return 1u << one | 1u << other | (draw_below(2) ? (unsigned)draw_below(1 << STREAM_FAULTS) : 0);
}

/* A record of which some bytes are random, or all of them, and a good one behind it, mostly whole:
 * nothing is known of what a reader makes of the two. */
static void end_with_random(struct page_stream *s)
{
    enum record_kind kind = (enum record_kind)(RECORD_RANDOM + draw_below(RECORD_KINDS - RECORD_RANDOM));
    result_record_random(&drawn, kind);
    stream_end(s, &drawn, TAIL_ANY_BYTES);
    result_record_any(&drawn, result_draw_m());
    put(s, drawn.bytes, drawn.len - (draw_below(4) == 0));
}

/* How much is there of a good record with fields that is cut in this place. */
static size_t draw_cut(enum tail tail)
{
    size_t packed = result_open_bytes(drawn.says.rows, drawn.fields), scores = packed - 4 * drawn.says.rows;
    switch (tail) {
    case TAIL_ONE_BYTE: return 1;
    case TAIL_TWO_BYTES: return 2;
    case TAIL_HEAD_ALONE: return HEAD;
    case TAIL_CUT_IN_FIELDS: return HEAD + 1 + draw_below(scores - HEAD - 1);
    case TAIL_CUT_IN_SCORES: return scores + draw_below(packed - scores);
    default: return packed + draw_below(drawn.len - packed);
    }
}

/* Two bytes are 13 with a bad m too. */
static void end_with_part(struct page_stream *s, enum tail tail)
{
    uint32_t m = result_draw_m(), rows = result_draw_rows(m);
    result_record_good(&drawn, m, rows, 1 + (unsigned)draw_below(RESULT_FIELD_SETS - 1));
    if (tail == TAIL_TWO_BYTES && draw_below(2)) {
        result_record_cut(&drawn, 2, FAULT_M);
        stream_end(s, &drawn, tail);
    } else {
        stream_end_cut(s, &drawn, draw_cut(tail));
    }
}

void stream_end_drawn(struct page_stream *s, enum tail tail)
{
    result_record_any(&drawn, result_draw_m());
    switch (tail) {
    case TAIL_NOTHING: break;
    case TAIL_GOOD: stream_end(s, &drawn, tail); break;
    case TAIL_MAP: end_with_bad_head(s, tail, FAULT_FIELD_MAP, 1); break;
    case TAIL_M: end_with_bad_head(s, tail, FAULT_M, HEAD); break;
    case TAIL_ROWS: end_with_bad_head(s, tail, FAULT_ROWS, HEAD); break;
    case TAIL_RISING: end_with_break(s, tail, RISING); break;
    case TAIL_CEILING_BELOW: end_with_break(s, tail, CEILING_BELOW); break;
    case TAIL_CEILING_AS_ABSENT: end_with_break(s, tail, CEILING_AS_ABSENT); break;
    case TAIL_FRAME_AS_ABSENT: end_with_break(s, tail, FRAME_AS_ABSENT); break;
    case TAIL_SEVERAL_FAULTS: stream_end_faulty(s, draw_faults()); break;
    case TAIL_ANY_BYTES: end_with_random(s); break;
    default: end_with_part(s, tail);
    }
}

/* ---- what nobody reads */

uint32_t stream_refusal(const struct page_stream *s)
{
    return s->records == PAGE_RECORDS && s->tail != TAIL_NOTHING ? 23 : s->refusal;
}

void stream_put_behind(struct page_stream *s)
{
    uint32_t refusal = stream_refusal(s);
    if (refusal == 0 || refusal == 13 || refusal == RESULT_UNKNOWN)
        return;
    for (size_t parts = draw_below(4); parts > 0; parts--) {
        uint8_t any[64];
        draw_bytes(any, sizeof any);
        draw_small();
        if (draw_below(2))
            put(s, any, 1 + draw_below(sizeof any));
        else
            put(s, drawn.bytes, drawn.len);
    }
}

void stream_change_packed(struct page_stream *s)
{
    for (size_t i = 0; i < s->count; i++) {
        const struct stream_record *r = &s->places[i];
        size_t end = r->end < s->len ? r->end : s->len;
        if (r->packed < end)
            draw_bytes(s->bytes + r->packed, end - r->packed);
    }
}
