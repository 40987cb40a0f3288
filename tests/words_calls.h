/*
 * Calls that list the words of a code at a mark or above, made at random so that the refusal,
 * or that there is none, is known from how a call was made.
 */
#ifndef WORDS_CALLS_H
#define WORDS_CALLS_H

#include "decoder_calls.h"

/* The refusals of a call, first one first, as the rules have them. */
enum { WORDS_REFUSALS = 11, WORDS_FAULT_SETS = 1 << WORDS_REFUSALS };
extern const uint32_t words_order[WORDS_REFUSALS];

/* No code with more clear positions is served. */
enum { WORDS_MAX_K = 20 };

struct words_call {
    struct decoder_call block; /* the code, the soft values, what is lent and the refusal; its list size is 1 */
    int32_t mark;
    uint32_t sizes_of;         /* the m that the sizes were made for; the one passed may be another */
    unsigned faults;           /* bit j: made for refusal words_order[j] */
    enum pair_fault pairs_fault;
};

/* ---- calls that are not refused before any word is looked at */

/* Which positions are clear: any, the first, the last, those of highest weight. */
enum clear_kind { CLEAR_ANY, CLEAR_FIRST, CLEAR_LAST, CLEAR_HEAVY, CLEAR_KINDS };

/* A code with k clear positions by this transform; soft values all 0, a mark that every word
 * reaches, and no room. */
void words_call_code(struct words_call *c, uint32_t m, int arikan, size_t k, enum clear_kind clear,
                     enum pair_kind pairs);

/* Gives the call new soft values, by its code. */
void words_call_soft(struct words_call *c, enum soft_kind soft);

/* Gives the call so many places for scores, and all else that is lent exactly the length needed. */
void words_call_room(struct words_call *c, size_t places);

/* Makes all that is lent but the scores as long or longer. */
void words_call_lengthen(struct words_call *c);

/* A call by this transform that is served, with up to four clear positions and any mark. */
void words_call_quick(struct words_call *c, uint32_t m, int arikan);

/* k of the call's code; the sum of the magnitudes of its soft values, as taken. */
size_t words_clear(const struct words_call *c);
int32_t words_magnitudes(const struct words_call *c);

/* How many of these correlations are at a mark or above. */
size_t words_count(const int32_t *correlations, size_t count, int32_t mark);

/* What is wrong with the number of words of a call that was served; a null pointer if it can be
 * so. By how the call was made alone. */
const char *words_count_fault(const struct words_call *c, uint32_t count);

/* Marks: the ends of 32 bits, next to them, and any number; the correlation of a word, one above
 * and one below it; the largest and the least of all words, and one above each; the sum of the
 * magnitudes, one above it and its negative; 0; any between least and largest. */
enum mark_kind {
    MARK_LOWEST, MARK_HIGHEST, MARK_NEXT_LOWEST, MARK_NEXT_HIGHEST, MARK_ANY, MARK_WORD, MARK_ABOVE_WORD,
    MARK_BELOW_WORD, MARK_BEST, MARK_ABOVE_BEST, MARK_LEAST, MARK_ABOVE_LEAST, MARK_SUM, MARK_ABOVE_SUM,
    MARK_MINUS_SUM, MARK_ZERO, MARK_BETWEEN, MARK_KINDS
};
int32_t words_mark(const struct words_call *c, enum mark_kind kind, const int32_t *correlations, size_t count);

/* Places for so many words: none, one too few, as many, one more, more, any number up to as many. */
enum room_kind { ROOM_NONE, ROOM_ONE_LESS, ROOM_EXACT, ROOM_ONE_MORE, ROOM_MANY, ROOM_ANY, ROOM_KINDS };
size_t words_room(enum room_kind kind, size_t count);

/* ---- faults */

/* A faulty call: bit j of faults asks for refusal words_order[j]. One that the code cannot have
 * (3, where n is not 4, and 20, where n is below 32) is left out. The call's refusal becomes the
 * first that applies, 0 if none. */
void words_call_faulty(struct words_call *c, uint32_t m, int arikan, unsigned faults);

/* Breaks the pairs of a call in this way; 0 if its map leaves no pair to do it with. */
int words_call_break(struct words_call *c, enum pair_fault fault);

/* A number of clear positions above 20 and at most n, at times one that a narrow register takes
 * for a smaller one. n is at least 32, and which below the count given. */
size_t words_bad_k(size_t n, size_t which);
enum { BAD_KS = 9 };

/* The place of a refusal in words_order. */
size_t words_place(uint32_t refusal);

#endif
