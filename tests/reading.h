/* A job record as the library's reader and the reference's read it, for comparing. */
#ifndef READING_H
#define READING_H

#include "reference_job.h"
#include "writer_calls.h"

/* What a reader gives: the answer and its three outputs to their ends. */
struct reading {
    struct reference_job job;
    uint8_t map[DECODER_MAX_N / 8], pairs[4 * PAIRS_MOST];
    int16_t soft[DECODER_MAX_N];
};

/* Each reads into outputs that were dirty. */
void read_by_library(const uint8_t *record, size_t len, struct reading *r);
void read_by_reference(const uint8_t *record, size_t len, struct reading *r);

/* What both must give for the record of a call. */
void read_from_call(const struct writer_call *c, struct reading *r);

int same_reading(const struct reading *x, const struct reading *y);

#endif
