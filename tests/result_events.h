/* What came with calls made for some m, by name, and tables of it. */
#ifndef RESULT_EVENTS_H
#define RESULT_EVENTS_H

#include "result_values.h"
#include "tally_report.h"

enum { RESULT_EVENTS = 80 };
struct result_events {
    unsigned long met[RESULT_MAX_M + 1][RESULT_EVENTS];
};

/* What follows prints counts, and gives 1 if each of them is enough. */

/* A row for each m: the events from one to before another. */
int result_print_events(const struct result_events *events, const char *const *names, size_t from, size_t to);

/* How often two faults stood together, at the m where they did so least. A fault at the place
 * only_at_2 counts for m = 2 alone. */
int result_print_order(const struct tally_both *by_m, const uint32_t *order, size_t count, size_t only_at_2);

/* The least of so many counts, in a line. */
int result_print_least(const char *title, const unsigned long *met, size_t count);

#endif
