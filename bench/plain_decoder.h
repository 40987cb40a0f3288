/*
 * A list decoder in plain C, to measure the library against. It works on the tables
 * that caldurrex_decode is lent and gives the same rows and ceiling, but checks no
 * argument: the call must be one that is accepted. Behind the last row it writes
 * nothing, and it leaves the least lengths of both tables 0.
 */
#ifndef PLAIN_DECODER_H
#define PLAIN_DECODER_H

#include <stdint.h>

struct plain_decoded {
    int rows;
    int32_t ceiling;
};

struct plain_decoded plain_decode(int m, int arikan, const uint8_t *map, const uint8_t *pairs, int pair_count,
                                  int list_size, int stop, const int16_t *soft, uint32_t *numbers, uint8_t *bytes,
                                  uint8_t *inputs, uint8_t *words, int32_t *scores);

#endif
