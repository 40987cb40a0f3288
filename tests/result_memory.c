#include "result_memory.h"

#include <signal.h>
#include <stdio.h>
#include <stdlib.h>
#include <string.h>

/* What a room leaves over at least. */
enum { LEFT_OVER = 1024 };

static void (*under_way)(const char *what);
static unsigned long seed, calls;

/* ---- slices */

void result_slice_open(struct result_slice *s, const char *name, size_t longest)
{
    const size_t lengths[RESULT_ROOMS] = {4096, 16384, 40960, longest + LEFT_OVER};
    for (size_t i = 0; i < RESULT_ROOMS; i++)
        lent_open(&s->rooms[i], name, lengths[i]);
    s->lent = &s->rooms[0];
}

void result_slice_place(struct result_slice *s, const void *bytes, size_t len, size_t unit)
{
    size_t which = 0;
    while (which + 1 < RESULT_ROOMS && len * unit + LEFT_OVER > s->rooms[which].room_len)
        which++;
    s->lent = &s->rooms[which];
    lent_place_aligned(s->lent, bytes, len * unit, unit);
}

void result_slice_recall(const struct result_slice *s, void *to)
{
    memcpy(to, s->lent->before + (s->lent->at - s->lent->room), s->lent->len);
}

/* ---- calls */

/* An access outside a room. If the library made it, no output was under way that the
 * messages could disturb. */
static void on_fault(int number)
{
    if (under_way != NULL)
        under_way("memory outside the slices was touched");
    signal(number, SIG_DFL);
    raise(number);
}

void result_memory_open(unsigned long seed_used)
{
    seed = seed_used;
    signal(SIGSEGV, on_fault);
    signal(SIGBUS, on_fault);
}

void result_call_begins(void (*say)(const char *what))
{
    calls++;
    under_way = say;
}

void result_call_ends(void)
{
    under_way = NULL;
}

void result_give_up(void)
{
    printf("compare_result: FAILED at call %lu (seed %lu)\n", calls, seed);
    exit(1);
}
