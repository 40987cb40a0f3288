/*
 * A test load written from the rules alone, to compare the library with. It shares no code
 * with the library.
 */
#ifndef REFERENCE_LOAD_H
#define REFERENCE_LOAD_H

#include <stddef.h>
#include <stdint.h>

/* 0, the length of the record and the next state; or the refusal number and 0 in the other
 * two. */
struct reference_load {
    uint32_t refusal, length, state;
};

/* The draw from a state, which is the next state. */
uint32_t reference_draw(uint32_t state);

/* Takes and answers what caldurrex_test_load does. */
struct reference_load reference_test_load(uint32_t state, uint32_t m, uint8_t arikan,
                                          const uint8_t *map, size_t map_len,
                                          const uint8_t *pairs, size_t pairs_len, uint32_t frame,
                                          uint8_t *record, size_t record_len,
                                          uint8_t *payload, size_t payload_len);

#endif
