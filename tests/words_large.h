/* Calls on codes with so many words that the reference does not go through them. */
#ifndef WORDS_LARGE_H
#define WORDS_LARGE_H

#include <stddef.h>
#include <stdint.h>

/* Calls on a code with k clear positions, k up to WORDS_MAX_K: with no word, with a few, with one
 * place too few, with one more and, where the rows are not too long, with all words. Ends the
 * program if one is answered wrongly. */
void words_large(uint32_t m, size_t k, int arikan);

/* All words of a code with n = 32 and k = 20: the most words that a call can list. */
void words_largest(void);

#endif
