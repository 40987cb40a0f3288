#include "result_events.h"

#include <stdio.h>

static int print_row(const unsigned long *met, size_t from, size_t to)
{
    int reached = 1;
    for (size_t event = from; event < to; event++) {
        printf(" %6lu", met[event]);
        reached &= met[event] >= TALLY_FEW;
    }
    printf("%s\n", reached ? "" : "  NOT ALL REACHED");
    return reached;
}

int result_print_events(const struct result_events *events, const char *const *names, size_t from, size_t to)
{
    int all = 1;
    printf(" m");
    for (size_t event = from; event < to; event++)
        printf(" %6s", names[event]);
    printf("\n");
    for (uint32_t m = RESULT_MIN_M; m <= RESULT_MAX_M; m++) {
        printf("%2lu", (unsigned long)m);
        all &= print_row(events->met[m], from, to);
    }
    return all;
}

/* Of those that can stand together, for each m. */
static unsigned long least_of(const struct tally_both *by_m, size_t i, size_t j, size_t only_at_2)
{
    unsigned long least = by_m[2].met[i][j];
    for (size_t m = 3; m <= RESULT_MAX_M && i != only_at_2 && j != only_at_2; m++)
        if (by_m[m].met[i][j] < least)
            least = by_m[m].met[i][j];
    return least;
}

int result_print_order(const struct tally_both *by_m, const uint32_t *order, size_t count, size_t only_at_2)
{
    struct tally_both least;
    for (size_t i = 0; i < count; i++)
        for (size_t j = i + 1; j < count; j++)
            least.met[i][j] = least_of(by_m, i, j, only_at_2);
    return tally_print_order(&least, order, count);
}

int result_print_least(const char *title, const unsigned long *met, size_t count)
{
    unsigned long least = met[0];
    for (size_t i = 1; i < count; i++)
        if (met[i] < least)
            least = met[i];
    printf("%s: each of %zu at least %lu times\n", title, count, least);
    return least >= TALLY_FEW;
}
