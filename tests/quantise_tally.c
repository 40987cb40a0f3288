#include "quantise_tally.h"

#include <float.h>
#include <math.h>
#include <stdio.h>
#include <string.h>

/* Calls, by their answer; accepted ones, by where the samples are; refused with 6, by the length
 * of the samples; refused with 10 and accepted, by the length of the output. */
enum {
    ACCEPTED, REFUSED_1, REFUSED_6, REFUSED_10, DECODED, AT_0, AT_3 = AT_0 + 3,
    IN_0, IN_N, IN_2N, IN_LESS_8, IN_LESS_4, IN_LESS_1, IN_MORE_1, IN_MORE_4, IN_MORE_8, IN_8N, IN_FAR,
    OUT_0, OUT_LESS_1, OUT_EXACT, OUT_MORE_1, OUT_2N, OUT_FAR, OUT_LOW, EVENTS
};

static const char *const event_name[EVENTS] = {
    "served", "1", "6", "10", "decode", "at 0", "at 1", "at 2", "at 3", "0", "n", "2n", "4n-8", "4n-4", "4n-1",
    "4n+1", "4n+4", "4n+8", "8n", "far", "0", "n-1", "n", "n+1", "2n", "far", "low"};

static const char *const kind_name[KINDS_BY_VALUE] = {"quiet", "signal", "inf", "0", "subnor", "huge", "past",
                                                      "half e", "half o", "half -", "half +", "step", "small",
                                                      "usual", "other"};

static const char *const end_name[ENDS] = {"6.5 -", "6.5", "6.5 +", "7 -", "7", "7 +", "7.5 -", "7.5", "7.5 +"};

/* Kinds, then ends. */
enum { FLOATS = KINDS_BY_VALUE + ENDS };

static unsigned long events[QUANTISE_MAX_M + 1][EVENTS];
static unsigned long floats[QUANTISE_MAX_M + 1][2][2][FLOATS]; /* by sign, by part */

/* Wrong m: a few numbers, and two that some bits of take for a good one. */
static const uint32_t wrong_m[] = {0, 1, 11, 12, 31, 32, UINT32_MAX};
enum { WRONG_MS = sizeof wrong_m / sizeof wrong_m[0], MORE_BY_32 = WRONG_MS, MORE_BY_2_TO_31, WRONG_M_EVENTS };
static const char *const wrong_m_name[WRONG_M_EVENTS] = {"0", "1", "11", "12", "31", "32", "2^32 - 1", "m + 32",
                                                         "m + 2^31"};

static unsigned long wrong_ms[WRONG_M_EVENTS], all_three;
static struct tally_both both;
static struct tally_totals totals;

/* ---- floats, by their values and not by how they were drawn */

static int is_half(double steps)
{
    return steps - floor(steps) == 0.5;
}

static enum float_kind reading_kind(float magnitude)
{
    double steps = 64.0 * (double)magnitude;
    if (steps > FLT_MAX)
        return FAR_PAST_END;
    if (steps >= 2048)
        return PAST_END;
    if (is_half(steps))
        return fmod(floor(steps), 2) == 0 ? HALF_OF_EVEN : HALF_OF_ODD;
    if (is_half(64.0 * (double)nextafterf(magnitude, INFINITY)))
        return BELOW_HALF;
    if (is_half(64.0 * (double)nextafterf(magnitude, 0)))
        return ABOVE_HALF;
    if (steps == floor(steps))
        return STEP;
    if (steps < 0.5)
        return SMALL;
    return steps >= 16 && steps <= 256 ? USUAL : OTHER;
}

static enum float_kind kind_of(float part, uint32_t bits)
{
    switch (fpclassify(part)) {
    case FP_NAN: return bits >> 22 & 1 ? QUIET : SIGNALLING;
    case FP_INFINITE: return INFINITE;
    case FP_ZERO: return ZERO;
    case FP_SUBNORMAL: return SUBNORMAL;
    default: return reading_kind(fabsf(part));
    }
}

/* ENDS if it is none. */
static size_t end_of(float part)
{
    for (size_t j = 0; j < 3; j++) {
        float middle = (2046.5f + 0.5f * (float)j) / 64;
        if (fabsf(part) == middle)
            return 3 * j + 1;
        if (fabsf(part) == nextafterf(middle, 0) || fabsf(part) == nextafterf(middle, INFINITY))
            return 3 * j + (fabsf(part) < middle ? 0 : 2);
    }
    return ENDS;
}

static void tally_floats(const struct quantise_call *c)
{
    for (size_t i = 0; i < (size_t)1 << c->m; i++) {
        uint32_t bits = quantise_bits(c, i);
        float part;
        memcpy(&part, &bits, sizeof part);
        unsigned long *met = floats[c->m][signbit(part) != 0][i % 2];
        met[kind_of(part, bits)]++;
        size_t end = end_of(part);
        if (end < ENDS)
            met[KINDS_BY_VALUE + end]++;
    }
}

/* ---- calls */

static void tally_samples(size_t len, size_t n, unsigned long *met)
{
    const size_t named[] = {0, n, 2 * n, 4 * n - 8, 4 * n - 4, 4 * n - 1, 4 * n + 1, 4 * n + 4, 4 * n + 8, 8 * n,
                            4 * n + 65536};
    for (size_t j = 0; j < sizeof named / sizeof named[0]; j++)
        met[IN_0 + j] += len == named[j];
}

static void tally_output(size_t len, size_t n, unsigned long *met)
{
    const size_t named[] = {0, n - 1, n, n + 1, 2 * n, n + 65536};
    for (size_t j = 0; j < sizeof named / sizeof named[0]; j++)
        met[OUT_0 + j] += len == named[j];
    met[OUT_LOW] += len >= 65536 && len - 65536 < n;
}

static void tally_m(const struct quantise_call *c)
{
    for (size_t j = 0; j < WRONG_MS; j++)
        wrong_ms[j] += c->m == wrong_m[j];
    wrong_ms[MORE_BY_32] += c->m == c->sizes_of + 32;
    wrong_ms[MORE_BY_2_TO_31] += c->m == c->sizes_of + 0x80000000u;
}

void quantise_tally(const struct quantise_call *c, size_t remainder)
{
    unsigned long *met = events[c->sizes_of];
    size_t n = (size_t)1 << c->sizes_of;
    tally_call(&totals, c->refusal, 0);
    tally_faults(&both, c->faults);
    all_three += c->faults == QUANTISE_FAULT_SETS - 1;
    switch (c->refusal) {
    case 0:
        met[ACCEPTED]++;
        met[AT_0 + remainder]++;
        tally_output(c->soft_len, n, met);
        tally_floats(c);
        break;
    case 1:
        met[REFUSED_1]++;
        tally_m(c);
        break;
    case 6:
        met[REFUSED_6]++;
        tally_samples(c->samples_len, n, met);
        break;
    default:
        met[REFUSED_10]++;
        tally_output(c->soft_len, n, met);
    }
}

void quantise_tally_decoded(const struct quantise_call *c)
{
    events[c->m][DECODED]++;
}

struct tally_totals quantise_tally_totals(void)
{
    return totals;
}

/* ---- the report: what follows prints counts, and gives 1 if each of them is enough */

static int end_row(int reached)
{
    printf("%s\n", reached ? "" : "  NOT ALL REACHED");
    return reached;
}

static int report_events(size_t from, size_t to)
{
    int all = 1;
    printf(" m");
    for (size_t event = from; event < to; event++)
        printf(" %6s", event_name[event]);
    printf("\n");
    for (uint32_t m = QUANTISE_MIN_M; m <= QUANTISE_MAX_M; m++) {
        int reached = 1;
        printf("%2lu", (unsigned long)m);
        for (size_t event = from; event < to; event++) {
            printf(" %6lu", events[m][event]);
            reached &= events[m][event] >= TALLY_FEW;
        }
        all &= end_row(reached);
    }
    return all;
}

/* Sums of both parts, of which each must have enough. */
static int report_floats(const char *const *names, size_t from, size_t count)
{
    int all = 1;
    printf("   m");
    for (size_t j = 0; j < count; j++)
        printf(" %6s", names[j]);
    printf("\n");
    for (size_t row = 2 * QUANTISE_MIN_M; row < 2 * (QUANTISE_MAX_M + 1); row++) {
        unsigned long(*met)[FLOATS] = floats[row / 2][row % 2];
        int reached = 1;
        printf("%c %2lu", row % 2 ? '-' : '+', (unsigned long)(row / 2));
        for (size_t j = from; j < from + count; j++) {
            printf(" %6lu", met[0][j] + met[1][j]);
            reached &= met[0][j] >= TALLY_FEW && met[1][j] >= TALLY_FEW;
        }
        all &= end_row(reached);
    }
    return all;
}

int quantise_tally_report(void)
{
    static const char *const three[1] = {"1, 6 and 10 at once"};
    int reached = report_events(0, IN_0);
    printf("served, refused; of those served: decoded, with samples at an address of this remainder by 4\n");
    reached &= report_events(IN_0, EVENTS);
    printf("refused with 6, by the samples' length, with 65,536 bytes more (far); refused with 10 and then served, by\n"
           "the output's length, with 65,536 more (far), above 65,536 by less than n (low)\n");
    reached &= report_floats(kind_name, 0, KINDS_BY_VALUE);
    printf("floats: NaN, by the first digit; 64 times it is not finite (huge), 32 or more (past); (k + 1/2)/64 for\n"
           "even and odd k, and next to it; k/64 (step); below 1/128 (small); 1/4 to 4 (usual)\n");
    reached &= report_floats(end_name, KINDS_BY_VALUE, ENDS);
    printf("2046.5/64, 2047/64 and 2047.5/64, and next to them\n");
    reached &= tally_print_order(&both, quantise_order, QUANTISE_REFUSALS);
    reached &= tally_print_named("faults:", three, &all_three, 1);
    reached &= tally_print_named("refused with 1, m:", wrong_m_name, wrong_ms, WRONG_M_EVENTS);
    return reached;
}
