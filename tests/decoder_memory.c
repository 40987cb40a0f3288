#include "decoder_memory.h"

#include "draw.h"

#include <stdio.h>
#include <stdlib.h>
#include <string.h>

static const struct {
    const char *name;
    size_t unit; /* bytes an element */
} slices[SLICES] = {{"map", 1},   {"pairs", 1},  {"soft", 2},  {"numbers", 4},
                    {"bytes", 1}, {"inputs", 1}, {"words", 1}, {"scores", 4}};

/* Rooms of 4096 bytes and of every power of two above, so that a short slice need not
 * be placed in a long room. */
enum { SMALLEST_ROOM = 4096, ROOMS = 15 };
static struct lent rooms[SLICES][ROOMS];

static void need(int ok, const char *what)
{
    if (!ok) {
        perror(what);
        exit(2);
    }
}

static void lengths(const struct decoder_call *c, size_t len[SLICES])
{
    const size_t all[SLICES] = {c->map_len, c->pairs.len, c->soft_len, c->numbers_len,
                                c->bytes_len, c->inputs_len, c->words_len, c->scores_len};
    for (size_t slice = 0; slice < SLICES; slice++)
        len[slice] = all[slice] * slices[slice].unit;
}

/* ---- dirt */

static void fill_dirty(uint8_t *to, size_t len, size_t unit, enum dirt dirt)
{
    if (dirt == DIRT_ANY) {
        draw_bytes(to, len);
        return;
    }
    memset(to, dirt == DIRT_ONES ? 0xff : 0, len);
    for (size_t i = 0; dirt == DIRT_SMALL && i < len; i += unit) {
        uint32_t number = (uint32_t)draw_below(3);
        uint8_t byte = (uint8_t)number;
        memcpy(to + i, unit == 4 ? (const void *)&number : &byte, unit);
    }
}

void decoder_memory_draw(enum dirt dirt[SLICES])
{
    for (size_t slice = 0; slice < SLICES; slice++)
        dirt[slice] = (enum dirt)draw_below(DIRTS);
}

void decoder_memory_draw_other(enum dirt dirt[SLICES])
{
    for (size_t slice = 0; slice < SLICES; slice++)
        dirt[slice] = (enum dirt)((dirt[slice] + 1 + draw_below(DIRTS - 1)) % DIRTS);
}

/* ---- slices */

/* A room with something left over for guard zones. */
static struct lent *room_for(size_t slice, size_t len)
{
    size_t which = 0;
    while ((size_t)SMALLEST_ROOM << which < len + 64)
        which++;
    need(which < ROOMS, slices[slice].name);
    struct lent *room = &rooms[slice][which];
    if (room->room == NULL)
        lent_open(room, slices[slice].name, (size_t)SMALLEST_ROOM << which);
    return room;
}

static struct lent *place(size_t slice, const void *bytes, size_t len, enum dirt dirt)
{
    static uint8_t *dirty;
    static size_t dirty_len;
    size_t unit = slices[slice].unit;
    if (bytes == NULL && len > 0) {
        if (len > dirty_len) {
            dirty = realloc(dirty, dirty_len = len);
            need(dirty != NULL, "realloc");
        }
        fill_dirty(dirty, len, unit, dirt);
        bytes = dirty;
    }
    struct lent *room = room_for(slice, len);
    lent_place_aligned(room, bytes, len, unit);
    return room;
}

void decoder_memory_place(const struct decoder_call *c, const enum dirt dirt[SLICES], struct lent *lent[SLICES])
{
    size_t len[SLICES];
    lengths(c, len);
    lent[MAP] = place(MAP, c->map, len[MAP], DIRT_ANY);
    lent[PAIRS] = place(PAIRS, c->pairs.bytes, len[PAIRS], DIRT_ANY);
    lent[SOFT] = place(SOFT, c->soft, len[SOFT], DIRT_ANY);
    for (size_t slice = FIRST_WRITTEN; slice < SLICES; slice++)
        lent[slice] = place(slice, NULL, len[slice], dirt[slice]);
}

void decoder_memory_want(const struct decoder_call *c, uint8_t *want[SLICES])
{
    static uint8_t *memory[SLICES];
    static size_t memory_len[SLICES];
    size_t len[SLICES];
    lengths(c, len);
    for (size_t slice = FIRST_WRITTEN; slice < SLICES; slice++) {
        if (len[slice] + 1 > memory_len[slice]) {
            memory[slice] = realloc(memory[slice], memory_len[slice] = len[slice] + 1);
            need(memory[slice] != NULL, "realloc");
        }
        want[slice] = memory[slice];
    }
}
