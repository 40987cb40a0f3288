#include "words_tally.h"

#include "reference_codec.h"
#include "reference_words.h"

#include <stdio.h>

enum { MAX_M = DECODER_MAX_M, FIRST_COUNTED_M = 4, FIRST_COUNTED_K = REFERENCE_LISTED_K + 1 };

/* Accepted calls: pairs, and what the rows have at frozen positions. */
enum { NO_PAIRS, SOME_PAIRS, FULL_PAIRS, SUM_OF_1, SUMS_DIFFER, PAIR_EVENTS };

static const char *const pair_name[PAIR_EVENTS] = {"none", "pairs", "full", "sums", "apart"};

/* Accepted calls by their number of words and by their room; those refused with 19 by their room. */
enum { WORDS_0, WORDS_1, WORDS_SOME, WORDS_ALL, PLACES_0, PLACES_EXACT, PLACES_ONE_MORE, PLACES_MANY, OVER_0,
       OVER_BY_1, OVER_BY_MORE, COUNT_EVENTS };

static const char *const count_name[COUNT_EVENTS] = {"no", "one", "some", "all", "room 0", "exact", "+1", "many",
                                                     "19: 0", "19: -1", "19: <"};

/* Marks of accepted calls and of those refused with 19; soft values of accepted calls with a word. */
enum { AT_LOWEST, AT_HIGHEST, AT_WORD, ABOVE_WORD, BELOW_WORD, AT_SUM, ABOVE_SUM, TIES, FULL_SCALE, ALL_ZERO,
       MARK_EVENTS };

static const char *const mark_name[MARK_EVENTS] = {"lowest", "high", "word", "word+1", "word-1",
                                                   "sum",    "sum+1", "ties", "-2048", "all 0"};

/* Accepted calls with a slice as long as needed, longer by one; refused for this slice alone:
 * shorter by one, empty. Numbers come first, then bytes, inputs and words, and at last those
 * refused for inputs and words. */
enum { EXACT, ONE_MORE, ONE_LESS, EMPTY, LENGTHS, BOTH_SHORT = 4 * LENGTHS, LENGTH_EVENTS };

static const char *const length_name[LENGTH_EVENTS] = {"exact", "+1", "-1",    "empty", "exact", "+1",
                                                       "-1",    "empty", "exact", "+1", "-1",    "empty",
                                                       "exact", "+1", "-1",    "empty", "both"};

/* By the convolutional transform, by Arikan's. */
static struct tally_count answers[MAX_M + 1][2], counts[MAX_M + 1][2], marks[MAX_M + 1][2], lengths[MAX_M + 1][2];
static unsigned long sizes[MAX_M + 1][2][REFERENCE_LISTED_K + 1]; /* accepted, by k */
static unsigned long counted[MAX_M + 1][2][WORDS_MAX_K + 1][2];   /* by the number of words: accepted, 19 */
static unsigned long ends[WORDS_MAX_K + 1][2];                    /* so too: with the first word listed, the last */
static unsigned long other_yes[MAX_M + 1];                        /* accepted, with a byte above 1 for Arikan's */

static struct tally_both both;
static struct tally_totals totals;
static unsigned long pair_faults[PAIR_FAULTS];

struct tally_totals words_tally_totals(void)
{
    return totals;
}

unsigned long words_tally_calls(void)
{
    return totals.accepted + totals.refused;
}

/* ---- counting */

static void tally_pairs(const struct words_call *c, const struct words_outputs *out, unsigned long *met)
{
    const struct decoder_call *block = &c->block;
    size_t n = (size_t)1 << c->sizes_of;
    int ones = 0, apart = 0;
    for (size_t i = 0; i < n; i++)
        for (size_t r = 0; reference_frozen(block->map, i) && r < out->count; r++) {
            ones |= out->inputs[r * n + i];
            apart |= out->inputs[r * n + i] ^ out->inputs[i];
        }
    met[block->pairs.len == 0 ? NO_PAIRS : SOME_PAIRS]++;
    met[FULL_PAIRS] += (unsigned long)pairs_are_full(&block->pairs, block->map, n);
    met[SUM_OF_1] += (unsigned long)ones;
    met[SUMS_DIFFER] += (unsigned long)apart;
}

static void tally_counts(const struct words_call *c, const struct words_outputs *out, size_t count, size_t all,
                         unsigned long *met)
{
    size_t places = c->block.scores_len;
    if (out->refusal == 19) {
        met[places == 0 ? OVER_0 : places + 1 == count ? OVER_BY_1 : OVER_BY_MORE]++;
        return;
    }
    met[count == 0 ? WORDS_0 : count == 1 ? WORDS_1 : count < all ? WORDS_SOME : WORDS_ALL]++;
    met[PLACES_0] += places == 0;
    met[PLACES_EXACT] += places == count && count > 0;
    met[PLACES_ONE_MORE] += places == count + 1;
    met[PLACES_MANY] += places > count + 1;
}

/* How many of the correlations are at this number. */
static size_t count_at(const int32_t *correlations, size_t count, int64_t at)
{
    size_t same = 0;
    for (size_t i = 0; i < count; i++)
        same += correlations[i] == at;
    return same;
}

static void tally_marks(const struct words_call *c, const struct words_outputs *out, const int32_t *correlations,
                        size_t all, unsigned long *met)
{
    int32_t most = words_magnitudes(c);
    int ties = 0, full_scale = 0;
    met[AT_LOWEST] += c->mark == INT32_MIN;
    met[AT_HIGHEST] += c->mark == INT32_MAX;
    met[AT_WORD] += count_at(correlations, all, c->mark) > 0;
    met[ABOVE_WORD] += count_at(correlations, all, (int64_t)c->mark - 1) > 0;
    met[BELOW_WORD] += count_at(correlations, all, (int64_t)c->mark + 1) > 0;
    met[AT_SUM] += c->mark == most;
    met[ABOVE_SUM] += (int64_t)c->mark - 1 == most;
    for (size_t r = 1; r < out->count; r++)
        ties |= out->scores[r] == out->scores[r - 1];
    for (size_t i = 0; i < (size_t)1 << c->sizes_of; i++)
        full_scale |= c->block.soft[i] == -2048;
    met[TIES] += (unsigned long)ties;
    met[FULL_SCALE] += (unsigned long)(full_scale && out->count > 0);
    met[ALL_ZERO] += most == 0 && out->count > 0;
}

/* Of one slice, all others being long enough. */
static void tally_length(size_t len, size_t need, unsigned long *met)
{
    met[EXACT] += len == need;
    met[ONE_MORE] += len == need + 1;
    met[ONE_LESS] += len + 1 == need;
    met[EMPTY] += len == 0 && need > 0;
}

static void tally_lengths(const struct words_call *c, struct tally_count *count)
{
    const struct decoder_call *block = &c->block;
    size_t n = (size_t)1 << c->sizes_of, rows = n * block->scores_len, shorts = 0;
    const size_t lens[4] = {block->numbers_len, block->bytes_len, block->inputs_len, block->words_len};
    const size_t needs[4] = {32 * n, 4 * n + 256, rows, rows};
    for (size_t i = 0; i < 4; i++)
        shorts += lens[i] < needs[i];
    for (size_t i = 0; i < 4; i++)
        if (shorts == (size_t)(lens[i] < needs[i]))
            tally_length(lens[i], needs[i], count->events + LENGTHS * i);
    count->answers[0] += shorts == 0;
    count->events[BOTH_SHORT] += lens[2] < rows && lens[3] < rows;
}

/* Calls of which the words count: served, or refused with 19. */
static void tally_words(const struct words_call *c, const struct words_outputs *out)
{
    const struct decoder_call *block = &c->block;
    int by = block->arikan != 0;
    size_t k = words_clear(c), all = (size_t)1 << k;
    const int32_t *correlations = reference_correlations(block->m, block->arikan, block->map, block->pairs.bytes,
                                                         block->pairs.len, block->soft);
    struct tally_count *count = &counts[c->sizes_of][by], *mark = &marks[c->sizes_of][by];
    count->answers[0] += out->refusal == 0;
    mark->answers[0] += out->refusal == 0;
    tally_counts(c, out, words_count(correlations, all, c->mark), all, count->events);
    tally_marks(c, out, correlations, all, mark->events);
    if (out->refusal != 0)
        return;
    tally_pairs(c, out, answers[c->sizes_of][by].events);
    sizes[c->sizes_of][by][k]++;
    other_yes[c->sizes_of] += block->arikan > 1;
}

void words_tally(const struct words_call *c, const struct words_outputs *out)
{
    int by = c->block.arikan != 0;
    answers[c->sizes_of][by].answers[out->refusal]++;
    tally_call(&totals, out->refusal, c->block.arikan);
    tally_faults(&both, c->faults);
    if (out->refusal == 0 || out->refusal == 19)
        tally_words(c, out);
    if (out->refusal == 0 || (out->refusal >= 8 && out->refusal <= 10))
        tally_lengths(c, &lengths[c->sizes_of][by]);
    if (out->refusal == 15)
        pair_faults[c->pairs_fault]++;
}

/* The number of clear positions at which an input has a 1. */
static size_t payload_ones(const struct words_call *c, const uint8_t *input)
{
    size_t ones = 0;
    for (size_t i = 0; i < (size_t)1 << c->sizes_of; i++)
        ones += !reference_frozen(c->block.map, i) && input[i];
    return ones;
}

void words_tally_counted(const struct words_call *c, const struct words_outputs *out)
{
    size_t n = (size_t)1 << c->sizes_of, k = words_clear(c);
    tally_call(&totals, out->refusal, c->block.arikan);
    counted[c->sizes_of][c->block.arikan != 0][k][out->refusal != 0]++;
    if (out->count > 0) {
        ends[k][0] += payload_ones(c, out->inputs) == 0;
        ends[k][1] += payload_ones(c, out->inputs + (out->count - 1) * n) == k;
    }
}

/* ---- the report */

static int report_calls(void)
{
    static const struct tally_table table = {words_order, WORDS_REFUSALS, pair_name, PAIR_EVENTS};
    int reached = tally_print_table(&table, answers, other_yes);
    printf("accepted: with no pairs, some, 256 or all that can be (full); with a row that has a 1 at a frozen\n"
           "position (sums), and there a 0 in another row (apart); with another byte than 1 for Arikan's transform\n"
           "(other)\n");
    return reached;
}

static int report_words(void)
{
    static const struct tally_table by_count = {words_order, 0, count_name, COUNT_EVENTS};
    static const struct tally_table by_mark = {words_order, 0, mark_name, MARK_EVENTS};
    int reached = tally_print_table(&by_count, counts, NULL);
    printf("accepted: with no word, one, some, all of a code that has several; with no place for any, as many places\n"
           "as words (exact), one more, many more; refused with 19: with no place, with one too few, with fewer\n");
    reached &= tally_print_table(&by_mark, marks, NULL);
    printf("accepted or 19: with the lowest and the highest mark, the correlation of a word, one above and one below\n"
           "it, the sum of the magnitudes, one above it; accepted: with equal scores, with -2048, with all 0\n");
    return reached;
}

static int report_lengths(void)
{
    static const struct tally_table table = {words_order, 0, length_name, LENGTH_EVENTS};
    int reached = tally_print_table(&table, lengths, NULL);
    printf("of numbers, bytes, inputs, words: as long as needed, one more; refused for it alone: with one less, with\n"
           "none (empty); with inputs and words too short (both)\n");
    return reached;
}

/* The fewest accepted calls of any k that a code of this size can have, by either transform. */
static int report_sizes(void)
{
    int all = 1;
    printf("accepted with each k up to %d or n, at the fewest:", REFERENCE_LISTED_K);
    for (uint32_t m = DECODER_MIN_M; m <= MAX_M; m++) {
        unsigned long fewest = sizes[m][0][0];
        for (size_t k = 0; k <= REFERENCE_LISTED_K && k <= (size_t)1 << m; k++)
            for (int by = 0; by < 2; by++)
                fewest = sizes[m][by][k] < fewest ? sizes[m][by][k] : fewest;
        printf("%s m %lu: %lu", m == DECODER_MIN_M ? "" : ",", (unsigned long)m, fewest);
        all &= fewest >= TALLY_FEW;
    }
    printf("\n");
    return all;
}

static int report_counted(size_t most_k)
{
    int all = 1;
    printf("by the number of words, accepted and 19, with k");
    for (size_t k = FIRST_COUNTED_K; k <= most_k; k++)
        printf("%9zu", k);
    printf("\n");
    for (uint32_t m = FIRST_COUNTED_M; m <= MAX_M; m++) {
        printf("%46s%2lu", "m ", (unsigned long)m);
        for (size_t k = FIRST_COUNTED_K; k <= most_k && k <= (size_t)1 << m; k++) {
            unsigned long(*by)[WORDS_MAX_K + 1][2] = counted[m];
            printf(" %4lu %3lu", by[0][k][0] + by[1][k][0], by[0][k][1] + by[1][k][1]);
            all &= by[0][k][0] > 0 && by[1][k][0] > 0 && by[0][k][1] > 0 && by[1][k][1] > 0;
        }
        printf("\n");
    }
    printf("%48s", "with the first word and with the last");
    for (size_t k = FIRST_COUNTED_K; k <= most_k; k++) {
        printf(" %4lu %3lu", ends[k][0], ends[k][1]);
        all &= ends[k][0] >= TALLY_FEW && ends[k][1] >= TALLY_FEW;
    }
    printf("\n");
    return all;
}

int words_tally_report(size_t most_k)
{
    int reached = report_calls();
    reached &= report_words();
    reached &= report_lengths();
    reached &= report_sizes();
    reached &= tally_print_order(&both, words_order, WORDS_REFUSALS);
    reached &= tally_print_named("refused with 15:", tally_pair_fault, pair_faults, PAIR_FAULTS);
    reached &= report_counted(most_k);
    return reached;
}
