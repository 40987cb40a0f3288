/* Parts of the reports of what compared calls have reached. */
#ifndef TALLY_REPORT_H
#define TALLY_REPORT_H

#include "pairs.h"

#include <stddef.h>
#include <stdint.h>

/* What is met fewer times does not count as met. */
enum { TALLY_FEW = 3 };

/* Accepted and refused calls, and those of them by Arikan's transform. */
struct tally_totals {
    unsigned long accepted, refused, arikan;
};

/* Counts a call. */
void tally_call(struct tally_totals *totals, uint32_t refusal, uint8_t arikan);

/* How often two faults stood in one call, by their places in the order of the refusals. */
enum { TALLY_REFUSALS = 16 };
struct tally_both {
    unsigned long met[TALLY_REFUSALS][TALLY_REFUSALS];
};

/* Counts a call in which bit j of faults is the fault at place j. */
void tally_faults(struct tally_both *both, unsigned faults);

/* The ways to break pairs. */
extern const char *const tally_pair_fault[PAIR_FAULTS];

/* What came with calls made for some m, by one transform: answers by their number, 0 for
 * accepted, and events that a comparison names. */
enum { TALLY_ANSWERS = 32, TALLY_EVENTS = 32 };
struct tally_count {
    unsigned long answers[TALLY_ANSWERS], events[TALLY_EVENTS];
};

/* The columns of a table with a row for each m: accepted, refusals in their order, events. */
struct tally_table {
    const uint32_t *order;
    size_t refusals;
    const char *const *event_name;
    size_t events;
};

/* What follows prints counts, and gives 1 if each of them is enough. */

/* A row for each m from 2 to 10 has the sums of what came by both transforms, of which each must
 * have enough. Behind them, if other is not null, stand the calls that ask for Arikan's transform
 * by another byte than 1. */
int tally_print_table(const struct tally_table *t, struct tally_count counts[][2], const unsigned long *other);

/* How often the fault of a row stood with that of a column, for so many refusals. */
int tally_print_order(const struct tally_both *both, const uint32_t *order, size_t count);

/* A line. */
int tally_print_named(const char *title, const char *const *names, const unsigned long *met, size_t count);

#endif
