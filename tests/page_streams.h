/*
 * Result records back to back, as the shift log reads them: good ones, then a tail of some kind,
 * and behind it bytes that are not read. How the page of a stream must end is known from how the
 * stream was made, unless its tail is any bytes.
 */
#ifndef PAGE_STREAMS_H
#define PAGE_STREAMS_H

#include "reference_page.h"
#include "reference_result.h"
#include "result_records.h"

enum tail {
    TAIL_NOTHING,
    TAIL_GOOD,
    TAIL_MAP,                                                                        /* 14 */
    TAIL_ONE_BYTE, TAIL_TWO_BYTES,                                                   /* 13 */
    TAIL_M,                                                                          /* 1 */
    TAIL_ROWS,                                                                       /* 4 */
    TAIL_HEAD_ALONE, TAIL_CUT_IN_FIELDS, TAIL_CUT_IN_SCORES, TAIL_CUT_IN_PACKED,     /* 13 */
    TAIL_RISING, TAIL_CEILING_BELOW, TAIL_CEILING_AS_ABSENT, TAIL_FRAME_AS_ABSENT,   /* 22 */
    TAIL_SEVERAL_FAULTS,
    TAIL_ANY_BYTES,
    TAILS
};
extern const char *const stream_tail_name[TAILS];

/* What can be wrong with a record of a stream: bit j of a set is bit j of the faults that
 * result_records.h has for a reader, up to FAULT_RESULT. FAULT_LENGTH is one that the end of the
 * input cuts behind its head. */
enum { STREAM_FAULTS = 5 };

/* A record in a stream: from at to end, the packed bytes last. */
struct stream_record {
    size_t at, packed, end;
};

enum { STREAM_ROOM = (PAGE_RECORDS + 5) * REFERENCE_RESULT_BYTES };
struct page_stream {
    uint8_t bytes[STREAM_ROOM];
    size_t len;
    size_t records; /* good ones, before the tail */
    size_t tail_at; /* where they end */
    enum tail tail;
    unsigned faults;  /* of the tail */
    uint32_t refusal; /* of the tail if it is no record too many; 0 if there is none; it may be RESULT_UNKNOWN */
    struct stream_record places[PAGE_RECORDS + 1]; /* of the records with a good head, the tail's too */
    size_t count;
};

/* An empty stream. */
void stream_start(struct page_stream *s);

/* A stream of bytes of which nothing is known. */
void stream_take(struct page_stream *s, const uint8_t *bytes, size_t len);

/* A good record more; or so many that are drawn, small ones if they are many. */
void stream_add(struct page_stream *s, const struct result_record *r);
void stream_add_drawn(struct page_stream *s, size_t count);

/* Ends a stream of good records: with a record as it is, which is good or refused; with the first
 * bytes of one, of which not all are there, and which would be good or refused with 22; with one
 * that has these faults; with a drawn tail. */
void stream_end(struct page_stream *s, const struct result_record *r, enum tail tail);
void stream_end_cut(struct page_stream *s, const struct result_record *r, size_t len);
void stream_end_faulty(struct page_stream *s, unsigned faults);
void stream_end_drawn(struct page_stream *s, enum tail tail);

/* Puts bytes behind a tail that is refused, any or good records, unless it is cut by the end of the
 * input. */
void stream_put_behind(struct page_stream *s);

/* Draws the packed bytes of all records anew, with bits past n. */
void stream_change_packed(struct page_stream *s);

/* What the page is refused with: 0, the tail's refusal, or 23. */
uint32_t stream_refusal(const struct page_stream *s);

#endif
