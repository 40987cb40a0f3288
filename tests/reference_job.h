/*
 * A reader of job records written from the rules alone, to compare the library with,
 * and what the program must print for an input. They share no code with the library
 * or the program.
 */
#ifndef REFERENCE_JOB_H
#define REFERENCE_JOB_H

#include <stddef.h>
#include <stdint.h>

/* 0 and what the record says, pairs being their number and arikan 1 for Arikan's transform and
 * else 0; or the refusal number and 0 in all others. */
struct reference_job {
    uint32_t refusal, m, list_size, stop, frame, pairs, arikan;
};

/* Takes and answers what caldurrex_read_job does. */
struct reference_job reference_read_job(const uint8_t *record, size_t len,
                                        uint8_t *map, size_t map_len,
                                        int16_t *soft, size_t soft_len,
                                        uint8_t *pairs, size_t pairs_len);

/* The program takes no longer input, and serves no larger n and no larger list. */
enum { PROGRAM_MAX_INPUT = 4096, PROGRAM_MAX_N = 64, PROGRAM_MAX_LIST = 4 };

/* No output is longer, its end as a string counted. */
enum { REFERENCE_OUTPUT_ROOM = 1024 };

/* out gets what the program must print for an input of len bytes; its length. */
size_t reference_output(const uint8_t *record, size_t len, char *out);

#endif
