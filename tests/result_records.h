/*
 * Result records, made at random so that what each reader must answer is known from how a record
 * was made.
 */
#ifndef RESULT_RECORDS_H
#define RESULT_RECORDS_H

#include "result_calls.h"

/* What can be wrong for the customer's reader, first one first, as the rules have the refusals. A
 * record of fewer than three bytes is no fault of these: it has no place among them. */
enum { READ_REFUSALS = 7, READ_FAULT_SETS = 1 << READ_REFUSALS };
enum {
    FAULT_FIELD_MAP = 1, /* 14 */
    FAULT_M = 2,         /* 1 */
    FAULT_ROWS = 4,      /* 4 */
    FAULT_LENGTH = 8,    /* 13: cut to three bytes or more, or longer */
    FAULT_RESULT = 16,   /* 22 */
    FAULT_ROOM = 32,     /* 10: for the operator only if there is no room for the scores */
    FAULT_PACKED = 64    /* 21: only n = 4 can have it, and only the customer is told */
};
extern const uint32_t result_read_order[READ_REFUSALS];

/* What a result can be wrong in. */
enum result_fault { RISING, CEILING_BELOW, CEILING_AS_ABSENT, FRAME_AS_ABSENT, RESULT_FAULTS };

enum record_kind {
    RECORD_MADE,
    RECORD_WRITTEN,     /* by the library */
    RECORD_FLIPPED,     /* in one bit */
    RECORD_RANDOM,      /* in all bytes */
    RECORD_RANDOM_BODY, /* behind a good head */
    RECORD_CHANGED_1, RECORD_CHANGED_2, RECORD_CHANGED_3, /* in so many bytes, or fewer */
    RECORD_KINDS
};

/* The refusal of some is not known from how they were made. */
enum { RESULT_UNKNOWN = 99 };

struct result_record {
    enum record_kind kind;
    struct result says; /* what the record was made of */
    unsigned fields;    /* those that stand in it */
    uint8_t bytes[RECORD_ROOM];
    size_t len;
    size_t scores_len, inputs_len; /* room lent to a reader */
    uint32_t m_of;                 /* the m that it is counted for */
    unsigned faults;
    uint32_t refusal; /* by both readers with room enough, 21 apart; 0 if there is none */
};

/* A good record with these fields, and rooms of the lengths needed. */
void result_record_good(struct result_record *r, uint32_t m, uint32_t rows, unsigned fields);

/* The same without a choice: any rows and fields. */
void result_record_any(struct result_record *r, uint32_t m);

/* Writes the bytes anew after a change of the values; the length is that of the fields, and the
 * rooms are those needed. */
void result_pack(struct result_record *r);

/* What a reader must answer, by how the record was made and by the room lent. */
uint32_t result_customer_refusal(const struct result_record *r);
uint32_t result_operator_refusal(const struct result_record *r);

/* Makes a good record faulty. The refusal becomes the first that applies, 0 if none. */
void result_record_spoil(struct result_record *r, unsigned faults);

/* Each of these makes a good record faulty in one way; which is below the count given. */
enum { BAD_RECORD_LENGTHS = 16, SHORT_ROOMS = 8, FAR_ROOMS = 13, ROOMS = 16 };
void result_break(struct result_record *r, enum result_fault fault);
void result_set_record_length(struct result_record *r, size_t which);
void result_set_past_n(struct result_record *r, size_t row, unsigned bit);

/* Gives a record of any length another one; what comes behind the old one is often 0. */
void result_set_length(struct result_record *r, size_t len);

/* Rooms, of which the first are too short for the customer and the last far too long; and any
 * that are long enough, but seldom a far too long one. */
void result_set_rooms(struct result_record *r, size_t which);
void result_draw_rooms(struct result_record *r);

/* A record cut to len bytes, fewer than three; faults may be FAULT_FIELD_MAP, FAULT_M and
 * FAULT_ROOM. */
void result_record_cut(struct result_record *r, size_t len, unsigned faults);

/* Makes a good record one of the last five kinds, of which it is not known what a reader says. */
void result_record_random(struct result_record *r, enum record_kind kind);

#endif
