/*
 * The memory of the calls that write and read result records: slices in guarded rooms, and what
 * becomes of an access outside of them.
 */
#ifndef RESULT_MEMORY_H
#define RESULT_MEMORY_H

#include "lent.h"

/* A slice lies in the smallest of its rooms that leaves something over for guard zones. */
enum { RESULT_ROOMS = 4 };
struct result_slice {
    struct lent rooms[RESULT_ROOMS];
    struct lent *lent; /* the one that the call under way uses */
};

/* Gets the rooms; no slice is longer than so many bytes. */
void result_slice_open(struct result_slice *s, const char *name, size_t longest);

/* Places len elements of unit bytes each; they are random if bytes is null. */
void result_slice_place(struct result_slice *s, const void *bytes, size_t len, size_t unit);

/* to gets what lay in the slice before the call. */
void result_slice_recall(const struct result_slice *s, void *to);

/* From now on an access outside of a room while a call is under way ends in what the call has
 * named for it; seed is for messages. */
void result_memory_open(unsigned long seed);

/* Round each call of the library: say is told what is wrong, and ends the program. */
void result_call_begins(void (*say)(const char *what));
void result_call_ends(void);

/* The last line of a run that ends because of the call made last. */
void result_give_up(void);

#endif
