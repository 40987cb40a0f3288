/*
 * Calls of the test load, made at random so that the refusal and the length of the record
 * are known from how a call was made.
 */
#ifndef LOAD_CALLS_H
#define LOAD_CALLS_H

#include "writer_calls.h"

/* The refusals of a call, first one first, as the rules have them; up to 15 they stand at the
 * places that writer_order gives them. */
enum { LOAD_REFUSALS = 6, LOAD_FAULT_SETS = 1 << LOAD_REFUSALS };
extern const uint32_t load_order[LOAD_REFUSALS];

/* No output is longer. */
enum { LOAD_ROOM = WRITER_ROOM };

/* A call takes the code, the frame number and the record of a call of the writer, which the
 * load makes with a list size of 4, a stop position of n and soft values of its own. */
struct load_call {
    struct writer_call job; /* its refusal is that of the call; its soft values do not count */
    uint32_t state;
    size_t payload_len;
    unsigned faults; /* bit j: made for refusal load_order[j] */
};

/* A call that is served, by either transform: a state that is not 0, and of the fields frame
 * number and pairs those of the set, named as in job_calls.h. Both outputs have exactly the
 * length needed. */
void load_call_good(struct load_call *c, uint32_t m, unsigned fields);

/* Gives both outputs of a good call exactly the lengths that are needed. */
void load_call_trim(struct load_call *c);

/* Of a call with a good code, the bytes that its outputs need: the length of the record, k. */
size_t load_record_need(const struct load_call *c);
size_t load_payload_need(const struct load_call *c);

/* Makes a good call faulty: bit j of faults asks for refusal load_order[j]. One that the code
 * cannot have (3, where n is not 4) is left out. The call's refusal becomes the first that
 * applies, 0 if none. */
void load_call_spoil(struct load_call *c, unsigned faults);

/* Breaks the pairs of a good call in this way; 0 if its map leaves no pair to do it with. */
int load_call_break(struct load_call *c, enum pair_fault fault);

#endif
