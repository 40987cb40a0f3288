/*
 * The list of every code word at a mark or above written from the rules alone, to compare the
 * library with: the payloads of a code are gone through one by one, and the words that
 * correlate at the mark or above are kept. It shares no code or table with the library.
 */
#ifndef REFERENCE_WORDS_H
#define REFERENCE_WORDS_H

#include <stddef.h>
#include <stdint.h>

/* A code with more clear positions than the first is refused; the words of one with more than
 * the second are not gone through here. */
enum { REFERENCE_MAX_K = 20, REFERENCE_LISTED_K = 12 };

/* 0 and the number of words, or the refusal number and 0. */
struct reference_counted {
    uint32_t refusal, count;
};

/* The refusals 1, 2, 3, 15, 20 and 6 to 10, which are tested before any word is looked at; 0
 * if none applies. */
uint32_t reference_words_refusal(uint32_t m, const uint8_t *map, size_t map_len,
                                 const uint8_t *pairs, size_t pairs_len,
                                 const int16_t *soft, size_t soft_len,
                                 size_t numbers_len, size_t bytes_len,
                                 size_t inputs_len, size_t words_len, size_t scores_len);

/* The correlations of all 2^k words of a good code, k up to REFERENCE_LISTED_K, in the order of
 * their inputs. They are there until the next call of this or of reference_list_words. */
const int32_t *reference_correlations(uint32_t m, uint8_t arikan, const uint8_t *map,
                                      const uint8_t *pairs, size_t pairs_len, const int16_t *soft);

/* Takes and answers what caldurrex_list_words does. A call that is not refused before any word
 * is looked at has k up to REFERENCE_LISTED_K. */
struct reference_counted reference_list_words(uint32_t m, uint8_t arikan, const uint8_t *map, size_t map_len,
                                              const uint8_t *pairs, size_t pairs_len, int32_t mark,
                                              const int16_t *soft, size_t soft_len,
                                              uint32_t *numbers, size_t numbers_len,
                                              uint8_t *bytes, size_t bytes_len,
                                              uint8_t *inputs, size_t inputs_len,
                                              uint8_t *words, size_t words_len,
                                              int32_t *scores, size_t scores_len);

#endif
