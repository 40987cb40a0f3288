/*
 * The correlations of all words of a code, in far less time than the reference takes: each
 * word is the one before it with one generator row added, in the order of a Gray code. It
 * rests on a sum of words of a code being the word of the sum of their payloads.
 */
#ifndef WORDS_GRAY_H
#define WORDS_GRAY_H

#include "words_calls.h"

/* The correlations of all 2^k words of a call's code, k up to WORDS_MAX_K, in the order of their
 * inputs. They are there until the next call of this. */
const int32_t *gray_correlations(const struct words_call *c);

#endif
