/* Counts what the compared calls that list words have reached. */
#ifndef WORDS_TALLY_H
#define WORDS_TALLY_H

#include "tally_report.h"
#include "words_calls.h"
#include "words_check.h"

/* Counts a call that was answered rightly, with these outputs; its words were compared with those
 * of the reference. */
void words_tally(const struct words_call *c, const struct words_outputs *out);

/* Counts a call that was answered rightly by the number of its words. */
void words_tally_counted(const struct words_call *c, const struct words_outputs *out);

struct tally_totals words_tally_totals(void);
unsigned long words_tally_calls(void);

/* Prints the counts. Gives 0 and says so if something was not reached a few times: at some m, by
 * one of both transforms, an accepted call, a refusal that it can have, no pairs, some and 256 (or
 * all that a map allows, where n is too small for that), a row with a 1 at a frozen position, and
 * there a 0 in another row; no word, one, several and all of a code; room for none, for as many,
 * for one more and for many more; 19 with room for none, for one less and for fewer; each kind of
 * mark that is named; equal scores, -2048 among the soft values, nothing but 0; each of the lengths
 * that are named; every k up to REFERENCE_LISTED_K or n; at some m a call that asks for Arikan's
 * transform by another byte than 1; a call with two faults at once, for any two that it can have; a
 * way to break the pairs. And, of calls judged by the number of their words, from m = 4 on by each
 * transform one that was accepted and one refused with 19, for every k above REFERENCE_LISTED_K up
 * to most_k or n; and for every such k the first word of a code, and the last. */
int words_tally_report(size_t most_k);

#endif
