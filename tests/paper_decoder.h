/*
 * The list decoder written from the rules alone, to compare the library with. It
 * shares no code or table with it: scores are those of paper_score.h, and nothing goes
 * from one position to the next but the live prefixes and the highest score dropped so
 * far.
 */
#ifndef PAPER_DECODER_H
#define PAPER_DECODER_H

#include <stddef.h>
#include <stdint.h>

enum { PAPER_MAX_LIST = 32 };

/* 0, the row count and the ceiling, or the refusal number and 0 in the other two. */
struct paper_decoded {
    uint32_t refusal, rows;
    int32_t ceiling;
};

/* Takes and answers what caldurrex_decode does. */
struct paper_decoded paper_decode(uint32_t m, uint8_t arikan, const uint8_t *map, size_t map_len,
                                  const uint8_t *pairs, size_t pairs_len,
                                  uint32_t list_size, uint32_t stop,
                                  const int16_t *soft, size_t soft_len,
                                  uint32_t *numbers, size_t numbers_len,
                                  uint8_t *bytes, size_t bytes_len,
                                  uint8_t *inputs, size_t inputs_len,
                                  uint8_t *words, size_t words_len,
                                  int32_t *scores, size_t scores_len);

#endif
