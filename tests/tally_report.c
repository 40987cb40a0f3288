#include "tally_report.h"

#include "reference_codec.h"

#include <stdio.h>

const char *const tally_pair_fault[PAIR_FAULTS] = {
    [PART_OF_A_PAIR] = "a part of a pair", [ABOVE_256] = "above 256", [F_CLEAR] = "f clear", [F_AT_N] = "f at n",
    [F_PAST_N] = "f past n", [E_IS_F] = "e is f", [E_ABOVE_F] = "e above f", [PAIR_TWICE] = "a pair twice",
    [E_FALLS] = "e falls", [F_FALLS] = "f falls",
};

void tally_call(struct tally_totals *totals, uint32_t refusal, uint8_t arikan)
{
    totals->accepted += refusal == 0;
    totals->refused += refusal != 0;
    totals->arikan += arikan != 0;
}

void tally_faults(struct tally_both *both, unsigned faults)
{
    for (size_t i = 0; i < TALLY_REFUSALS; i++)
        for (size_t j = i + 1; j < TALLY_REFUSALS; j++)
            both->met[i][j] += faults >> i & faults >> j & 1;
}

/* ---- a table with a row for each m */

static int print_both(int width, unsigned long x, unsigned long y)
{
    printf(" %*lu", width, x + y);
    return x >= TALLY_FEW && y >= TALLY_FEW;
}

static void print_head(const struct tally_table *t)
{
    printf("%2s %8s", "m", "accepted");
    for (size_t j = 0; j < t->refusals; j++)
        printf(" %4lu", (unsigned long)t->order[j]);
    for (size_t event = 0; event < t->events; event++)
        printf(" %6s", t->event_name[event]);
}

static int print_row(const struct tally_table *t, uint32_t m, const struct tally_count by[2])
{
    printf("%2lu", (unsigned long)m);
    int reached = print_both(8, by[0].answers[0], by[1].answers[0]);
    for (size_t j = 0; j < t->refusals; j++) {
        uint32_t number = t->order[j];
        /* Only n = 4 leaves map bits past n; from n = 32 on more than 20 positions can be clear. */
        int possible = number == 3 ? m == 2 : number != 20 || m >= 5;
        reached &= print_both(4, by[0].answers[number], by[1].answers[number]) || !possible;
    }
    for (size_t event = 0; event < t->events; event++)
        reached &= print_both(6, by[0].events[event], by[1].events[event]);
    return reached;
}

int tally_print_table(const struct tally_table *t, struct tally_count counts[][2], const unsigned long *other)
{
    int all = 1;
    print_head(t);
    printf(other != NULL ? " other\n" : "\n");
    for (uint32_t m = 2; m <= REFERENCE_MAX_M; m++) {
        int reached = print_row(t, m, counts[m]) && (other == NULL || other[m] >= TALLY_FEW);
        if (other != NULL)
            printf(" %5lu", other[m]);
        printf("%s\n", reached ? "" : "  NOT ALL REACHED");
        all &= reached;
    }
    return all;
}

/* ---- faults */

/* A map that leaves a bit past n, for 3, has no more than 20 clear positions. */
static int can_meet(uint32_t first, uint32_t second)
{
    return first != 3 || second != 20;
}

int tally_print_order(const struct tally_both *both, const uint32_t *order, size_t count)
{
    int reached = 1;
    printf("both at once");
    for (size_t j = 1; j < count; j++)
        printf(" %5lu", (unsigned long)order[j]);
    printf("\n");
    for (size_t i = 0; i + 1 < count; i++) {
        printf("%12lu", (unsigned long)order[i]);
        printf("%*s", (int)(6 * i), "");
        for (size_t j = i + 1; j < count; j++) {
            printf(" %5lu", both->met[i][j]);
            reached &= both->met[i][j] >= TALLY_FEW || !can_meet(order[i], order[j]);
        }
        printf("\n");
    }
    return reached;
}

int tally_print_named(const char *title, const char *const *names, const unsigned long *met, size_t count)
{
    int reached = 1;
    printf("%s", title);
    for (size_t i = 0; i < count; i++) {
        printf("%s %s: %lu", i == 0 ? "" : ",", names[i], met[i]);
        reached &= met[i] >= TALLY_FEW;
    }
    printf("\n");
    return reached;
}
