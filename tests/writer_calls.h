/*
 * Calls of the record writer, made at random so that the answer is known from how a call
 * was made.
 */
#ifndef WRITER_CALLS_H
#define WRITER_CALLS_H

#include "decoder_calls.h"
#include "job_calls.h"

/* The refusals of a call, first one first, as the rules have them; up to 7 they stand at the
 * places that decoder_order gives them. */
enum { WRITER_REFUSALS = 9, WRITER_FAULT_SETS = 1 << WRITER_REFUSALS };
extern const uint32_t writer_order[WRITER_REFUSALS];

/* No output is longer. */
enum { WRITER_ROOM = 81920 };

/* A call of the writer takes what a call of the decoder does and, for tables and outputs, a
 * frame number and the record. */
struct writer_call {
    struct decoder_call job; /* its refusal is that of the call; the lengths of tables do not count */
    uint32_t frame;
    size_t record_len;
    uint32_t sizes_of;           /* the m that the sizes were made for: the m passed may be another */
    unsigned faults;             /* bit j: made for refusal writer_order[j] */
    enum pair_fault pairs_fault; /* how the pairs are broken, if they are */
};

/* A call that is served, by either transform: of the four fields those of the set, named as in
 * job_calls.h, have another value than absence means, and the others have that one. The output
 * is as long as the record. */
void writer_call_good(struct writer_call *c, uint32_t m, unsigned fields);

/* Of a good call, the fields that must stand in the record, and the record's length. */
unsigned writer_fields(const struct writer_call *c);
size_t writer_need(const struct writer_call *c);

/* Makes a good call faulty: bit j of faults asks for refusal writer_order[j]. One that the code
 * cannot have (3, where n is not 4) is left out. The call's refusal becomes the first that
 * applies, 0 if none. */
void writer_call_spoil(struct writer_call *c, unsigned faults);

/* Breaks the pairs of a good call in this way; 0 if its map leaves no pair to do it with. */
int writer_call_break(struct writer_call *c, enum pair_fault fault);

#endif
