#include "codec_check.h"

#include "caldurrex.h"
#include "lent.h"
#include "print_code.h"
#include "reference_codec.h"

#include <signal.h>
#include <stdio.h>
#include <stdlib.h>
#include <string.h>

_Static_assert(CALDURREX_BAD_M == 1 && CALDURREX_BAD_MAP_LENGTH == 2 && CALDURREX_BAD_MAP_BIT == 3 &&
                   CALDURREX_BAD_INPUT_LENGTH == 6 && CALDURREX_SHORT_OUTPUT == 10 &&
                   CALDURREX_NOT_A_BIT == 11 && CALDURREX_NOT_A_CODE_WORD == 12 && CALDURREX_BAD_PAIRS == 15,
               "the header names the refusals by the numbers of the rules");

enum { ANSWERS = 16 };

static const char *const kind_name[CALL_KINDS] = {"encode", "extract"};

/* Accepted calls without pairs, with some, with as many as there can be, and with a frozen
 * bit that is 1. */
enum { NO_PAIRS, SOME_PAIRS, FULL_PAIRS, SUM_OF_1, EVENTS };

static struct lent map, pairs, in, out;
static const struct call *under_way;
static unsigned long seed, calls, arikan_calls;

/* What came at some m, by one transform. */
struct count {
    unsigned long answers[ANSWERS], events[EVENTS];
};
static struct count counts[CALL_KINDS][MAX_M + 1][2]; /* by the convolutional transform, by Arikan's */
static unsigned long other_yes[CALL_KINDS][MAX_M + 1]; /* accepted, with a byte above 1 for Arikan's */

void check_fail(const struct call *c, const char *what)
{
    printf("compare_codec: %s: %s\n", kind_name[c->kind], what);
    printf("  m %lu, arikan %u, map of %zu bytes, pairs of %zu, input of %zu, output of %zu\n",
           (unsigned long)c->m, c->arikan, c->map_len, c->pairs.len, c->in_len, c->out_len);
    print_code(c->map, c->map_len, &c->pairs);
    printf("  input");
    for (size_t i = 0; i < c->in_len && i < 1024; i++)
        printf(c->in[i] < 10 ? "%s%u" : "%s(%u)", i % 64 == 0 ? " " : "", c->in[i]);
    printf("\ncompare_codec: FAILED at call %lu (seed %lu)\n", calls, seed);
    exit(1);
}

/* An access outside a room. If the library made it, no output was under way that
 * the messages could disturb. */
static void on_fault(int number)
{
    if (under_way != NULL)
        check_fail(under_way, "memory outside the slices was touched");
    signal(number, SIG_DFL);
    raise(number);
}

void check_open(unsigned long seed_used)
{
    seed = seed_used;
    lent_open(&map, "map", CALL_ROOM);
    lent_open(&pairs, "pairs", PAIRS_ROOM);
    lent_open(&in, "input", CALL_ROOM);
    lent_open(&out, "output", CALL_ROOM);
    signal(SIGSEGV, on_fault);
    signal(SIGBUS, on_fault);
}

static void judge(const struct call *c, uint32_t answer)
{
    static uint8_t want[CALL_ROOM];
    memcpy(want, out.before + (out.at - out.room), out.len);
    uint32_t right = (c->kind == ENCODE ? reference_encode : reference_extract)(
        c->m, c->arikan, c->map, c->map_len, c->pairs.bytes, c->pairs.len, c->in, c->in_len, want, c->out_len);
    if (answer != right || answer != c->answer) {
        char what[96];
        snprintf(what, sizeof what, "answer %lu, by construction %lu, by the reference %lu",
                 (unsigned long)answer, (unsigned long)c->answer, (unsigned long)right);
        check_fail(c, what);
    }
    if (!lent_holds(&map, NULL) || !lent_holds(&pairs, NULL) || !lent_holds(&in, NULL))
        check_fail(c, "an input or its guard was written");
    if (answer != 0 && !lent_holds(&out, NULL))
        check_fail(c, "a refused call wrote");
    if (answer == 0 && !lent_holds(&out, want))
        check_fail(c, "the output or its guard differs");
}

static void tally_accepted(const struct call *c)
{
    size_t n = (size_t)1 << c->m;
    unsigned long *met = counts[c->kind][c->m][c->arikan != 0].events;
    uint8_t u[REFERENCE_MAX_N];
    int ones = 0;
    other_yes[c->kind][c->m] += c->arikan > 1;
    met[c->pairs.len == 0 ? NO_PAIRS : SOME_PAIRS]++;
    if (c->pairs.len == 0)
        return;
    reference_input(n, c->map, c->pairs.bytes, c->pairs.len, c->kind == ENCODE ? c->in : out.at, u);
    for (size_t i = 0; i < n; i++)
        ones |= reference_frozen(c->map, i) && u[i];
    met[FULL_PAIRS] += (unsigned long)pairs_are_full(&c->pairs, c->map, n);
    met[SUM_OF_1] += (unsigned long)ones;
}

void check_call(const struct call *c, uint32_t sizes_of)
{
    lent_place(&map, c->map, c->map_len);
    lent_place(&pairs, c->pairs.bytes, c->pairs.len);
    lent_place(&in, c->in, c->in_len);
    lent_place(&out, NULL, c->out_len);
    calls++;
    arikan_calls += c->arikan != 0;
    under_way = c;
    uint32_t answer = (c->kind == ENCODE ? caldurrex_encode : caldurrex_extract)(
        c->m, c->arikan, map.at, map.len, pairs.at, pairs.len, in.at, in.len, out.at, out.len);
    under_way = NULL;
    judge(c, answer);
    counts[c->kind][sizes_of][c->arikan != 0].answers[answer]++;
    if (answer == 0)
        tally_accepted(c);
}

void check_as(struct call *c, uint32_t sizes_of, uint32_t answer)
{
    c->answer = answer;
    check_call(c, sizes_of);
}

const uint8_t *check_output(void)
{
    return out.at;
}

unsigned long check_count(void)
{
    return calls;
}

unsigned long check_arikan_count(void)
{
    return arikan_calls;
}

static int reached_all(enum call_kind kind, uint32_t m, const struct count *count)
{
    int reached = count->answers[0] > 0;
    for (size_t j = 0; call_order[kind][j] != 0; j++) {
        uint32_t number = call_order[kind][j];
        int possible = number != 3 || m == 2; /* only n = 4 leaves map bits past n */
        reached &= !possible || count->answers[number] > 0;
    }
    for (size_t event = 0; event < EVENTS; event++)
        reached &= count->events[event] > 0;
    return reached;
}

/* Of both transforms together, but for the last two columns. */
static int print_row(enum call_kind kind, uint32_t m)
{
    static const uint32_t columns[] = {0, 1, 2, 3, 15, 6, 10, 11, 12};
    const struct count *x = &counts[kind][m][0], *y = &counts[kind][m][1];
    int reached = reached_all(kind, m, x) && reached_all(kind, m, y) && other_yes[kind][m] > 0;
    printf("%-7s %2lu", kind_name[kind], (unsigned long)m);
    for (size_t j = 0; j < sizeof columns / sizeof columns[0]; j++)
        printf(j == 0 ? " %9lu" : " %6lu", x->answers[columns[j]] + y->answers[columns[j]]);
    for (size_t event = 0; event < EVENTS; event++)
        printf(" %6lu", x->events[event] + y->events[event]);
    printf(" %6lu %6lu%s\n", y->answers[0], other_yes[kind][m], reached ? "" : "  NOT ALL REACHED");
    return reached;
}

int check_report(void)
{
    int reached = 1;
    printf("%-7s %2s %9s %6s %6s %6s %6s %6s %6s %6s %6s %6s %6s %6s %6s %6s %6s\n", "call", "m", "accepted", "1", "2",
           "3", "15", "6", "10", "11", "12", "none", "pairs", "full", "sums", "arikan", "other");
    for (int kind = 0; kind < CALL_KINDS; kind++)
        for (uint32_t m = MIN_M; m <= MAX_M; m++)
            reached &= print_row((enum call_kind)kind, m);
    printf("accepted: with no pairs, with some, with 256 or all that can be (full), with a 1 at a frozen position\n"
           "(sums); by Arikan's transform, and those of them that ask for it by another byte than 1 (other)\n");
    return reached;
}
