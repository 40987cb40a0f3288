/*
 * A writer of job records written from the rules alone, to compare the library with. It
 * shares no code with the library.
 */
#ifndef REFERENCE_WRITER_H
#define REFERENCE_WRITER_H

#include <stddef.h>
#include <stdint.h>

/* No record is longer: two bytes, list size, stop position, frame number, frozen map, number
 * of pairs, 256 pairs and 1,024 soft values. */
enum { REFERENCE_RECORD_BYTES = 2 + 1 + 2 + 4 + 128 + 2 + 1024 + 2048 };

/* 0 and the length of the record; or the refusal number and 0. */
struct reference_length {
    uint32_t refusal, length;
};

/* Takes and answers what caldurrex_write_job does. */
struct reference_length reference_write_job(uint32_t m, uint8_t arikan, const uint8_t *map, size_t map_len,
                                            const uint8_t *pairs, size_t pairs_len,
                                            uint32_t list_size, uint32_t stop, uint32_t frame,
                                            const int16_t *soft, size_t soft_len,
                                            uint8_t *record, size_t record_len);

#endif
