/* The part of check_paper_decoder that looks at scores, and what its parts share. */
#ifndef CHECK_PAPER_SCORES_H
#define CHECK_PAPER_SCORES_H

#include <stddef.h>
#include <stdint.h>

/* Ends the program with status 1, and says what is wrong, unless ok. */
void check_need(int ok, const char *what, uint8_t arikan, size_t n, size_t len);

/* Soft values up to some magnitude, small ones often so that scores tie. */
void check_draw_soft(int16_t *soft, size_t n);

void check_draw_bits(uint8_t *bits, size_t len);

/* Checks the scores by one transform: of every prefix up to n = 16 and of longer ones with few
 * bits free against plain enumeration of all completions, and of prefixes of every length
 * against those that are longer by a bit. The number of scores checked. */
unsigned long check_paper_scores(uint8_t arikan);

#endif
