/*
 * Every code word at a mark or above in plain C, to measure the library against. It works on the
 * tables that caldurrex_list_words is lent and gives the same rows, but checks no argument: the
 * call must be one that is accepted or refused with 19. Behind the last row it writes nothing,
 * and it leaves the least lengths of both tables 0.
 */
#ifndef PLAIN_WORDS_H
#define PLAIN_WORDS_H

#include <stdint.h>

/* The number of words; -1 if there are more than places, and then no row is written. */
long plain_list_words(int m, int arikan, const uint8_t *map, const uint8_t *pairs, int pair_count, int32_t mark,
                      const int16_t *soft, uint32_t *numbers, uint8_t *bytes, uint8_t *inputs, uint8_t *words,
                      int32_t *scores, long places);

#endif
