/*
 * Memory lent to a call under test. A slice lies in a room of its own, and the
 * rest of the room is a guard zone of random bytes. No access is allowed to the
 * pages before and behind the room, and a slice often touches one of them: there
 * even a read outside the slice ends the program.
 */
#ifndef LENT_H
#define LENT_H

#include <stddef.h>
#include <stdint.h>

struct lent {
    const char *name; /* for messages */
    uint8_t *room;
    size_t room_len;
    uint8_t *before; /* the room as it was before the call */
    uint8_t *at;     /* the slice */
    size_t len;
};

/* Gets a room of at least room_len bytes. */
void lent_open(struct lent *s, const char *name, size_t room_len);

/* Chooses a place for a slice of len bytes, fills the room with random bytes and
 * the slice with bytes (random ones too if bytes is null). */
void lent_place(struct lent *s, const uint8_t *bytes, size_t len);

/* The same for elements of unit bytes each: the place is a multiple of unit. */
void lent_place_aligned(struct lent *s, const uint8_t *bytes, size_t len, size_t unit);

/* 1 if the slice holds want (what it held before the call if want is null) and
 * the guard zones are unchanged; otherwise says what differs and gives 0. */
int lent_holds(const struct lent *s, const uint8_t *want);

#endif
