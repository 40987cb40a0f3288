/*
 * Speed of the list of every code word at a mark or above beside a plain C program that folds as
 * it does. The clear positions are those of highest weight, and the soft values are noise round a
 * word of the code. Pairs, where there are some, have any frozen position as f, and any position
 * below it as e.
 *
 *   bench_words                     milliseconds a call of both, for two marks
 *   bench_words ours|plain|both few|all M K COUNT [PAIRS [arikan]]
 *                                   COUNT calls at n = 2^M with K clear positions, with so many
 *                                   pairs, by the convolutional transform or Arikan's, and
 *                                   nothing printed: by one program, to be counted by a tool,
 *                                   or by both, each call compared
 *
 * few is a mark of 5 % below the correlation of the word that was sent: the words that reach it
 * are counted, and then written. all is a mark that every word reaches, with room for one less:
 * they are counted, and the call is refused with 19.
 */
#define _DEFAULT_SOURCE /* mmap with MAP_ANONYMOUS */
#include "caldurrex.h"
#include "draw.h"
#include "pairs.h"
#include "plain_words.h"
#include "reference_codec.h"

#include <stdio.h>
#include <stdlib.h>
#include <string.h>
#include <sys/mman.h>
#include <time.h>

enum { MAX_N = REFERENCE_MAX_N, MAX_K = 20, BLOCKS = 16, FEW_ROOM = 64 };
enum program { OURS, PLAIN, BOTH, PROGRAMS };
enum mark { FEW, ALL, MARKS };

static const char *const program_name[PROGRAMS] = {"ours", "plain", "both"};
static const char *const mark_name[MARKS] = {"few", "all"};

/* A code, and some received blocks with their marks. */
static struct {
    uint32_t m;
    uint8_t arikan;
    size_t n, k;
    uint8_t map[MAX_N / 8];
    struct pairs pairs;
    int16_t soft[BLOCKS][MAX_N];
    int32_t marks[BLOCKS];
} load;

/* What is lent to a call. */
struct memory {
    uint32_t numbers[CALDURREX_NUMBERS(MAX_N, 1)];
    uint8_t bytes[CALDURREX_BYTES(MAX_N, 1)];
    uint8_t inputs[CALDURREX_ROWS(MAX_N, FEW_ROOM)], words[CALDURREX_ROWS(MAX_N, FEW_ROOM)];
    int32_t scores[FEW_ROOM];
};
static struct memory memory[2]; /* one for each program */

/* The outputs of a call that is refused with 19: up to 2 GB that no call touches, and that the
 * machine thus need not have. */
static struct {
    size_t rows_len, scores_len; /* in bytes */
    uint8_t *inputs, *words;
    int32_t *scores;
} far;

static void need(int ok, const char *what)
{
    if (!ok) {
        fprintf(stderr, "bench_words: %s at n = %zu, k = %zu, %zu pairs%s\n", what, load.n, load.k,
                pairs_count(&load.pairs), load.arikan ? ", by Arikan's transform" : "");
        exit(1);
    }
}

static void *map_far(size_t len)
{
    void *at = mmap(NULL, len, PROT_READ | PROT_WRITE, MAP_PRIVATE | MAP_ANONYMOUS | MAP_NORESERVE, -1, 0);
    need(at != MAP_FAILED, "there is no room for the rows of all words");
    return at;
}

/* For all words of the code. */
static void open_far(void)
{
    if (far.rows_len > 0) {
        munmap(far.inputs, far.rows_len);
        munmap(far.words, far.rows_len);
        munmap(far.scores, far.scores_len);
    }
    far.rows_len = load.n << load.k;
    far.scores_len = sizeof far.scores[0] << load.k;
    far.inputs = map_far(far.rows_len);
    far.words = map_far(far.rows_len);
    far.scores = map_far(far.scores_len);
}

static uint32_t weight(size_t i)
{
    uint32_t ones = 0;
    for (; i > 0; i /= 2)
        ones += (uint32_t)(i % 2);
    return ones;
}

/* A word of the code with noise, and a mark of 5 % below its correlation. */
static void make_block(size_t block)
{
    uint8_t payload[MAX_K], input[MAX_N], word[MAX_N];
    int32_t sent = 0;
    for (size_t i = 0; i < load.k; i++)
        payload[i] = (uint8_t)draw_below(2);
    reference_input(load.n, load.map, load.pairs.bytes, load.pairs.len, payload, input);
    reference_transform(load.n, load.arikan, input, word);
    for (size_t i = 0; i < load.n; i++) {
        int reading = 20 + (int)draw_below(81) - 40;
        load.soft[block][i] = (int16_t)(word[i] ? -reading : reading);
        sent += reading;
    }
    load.marks[block] = sent - sent / 20;
}

/* The same blocks at every run. */
static void make_load(uint32_t m, size_t k, size_t pairs, uint8_t arikan)
{
    memset(&load, 0, sizeof load);
    load.m = m;
    load.arikan = arikan;
    load.n = (size_t)1 << m;
    load.k = k;
    size_t frozen = 0;
    for (uint32_t w = 0; w <= m; w++)
        for (size_t i = 0; i < load.n && frozen < load.n - k; i++)
            if (weight(i) == w) {
                load.map[i / 8] |= (uint8_t)(1u << (i % 8));
                frozen++;
            }
    draw_seed(m);
    pairs_spread(&load.pairs, load.map, load.n, pairs);
    for (size_t block = 0; block < BLOCKS; block++)
        make_block(block);
    open_far();
}

/* The number of words; -1 for 19. */
static long list_words(enum program program, enum mark mark, size_t block)
{
    struct memory *lent = &memory[program];
    size_t n = load.n, places = mark == FEW ? FEW_ROOM : ((size_t)1 << load.k) - 1;
    const int16_t *soft = load.soft[block];
    int32_t at = mark == FEW ? load.marks[block] : INT32_MIN, *scores = mark == FEW ? lent->scores : far.scores;
    uint8_t *inputs = mark == FEW ? lent->inputs : far.inputs, *words = mark == FEW ? lent->words : far.words;
    if (program == PLAIN)
        return plain_list_words((int)load.m, load.arikan, load.map, load.pairs.bytes, (int)pairs_count(&load.pairs), at,
                                soft, lent->numbers, lent->bytes, inputs, words, scores, (long)places);
    struct caldurrex_counted answer =
        caldurrex_list_words(load.m, load.arikan, load.map, (n + 7) / 8, load.pairs.bytes, load.pairs.len, at, soft, n,
                             lent->numbers, CALDURREX_NUMBERS(n, 1), lent->bytes, CALDURREX_BYTES(n, 1),
                             inputs, CALDURREX_ROWS(n, places), words, CALDURREX_ROWS(n, places), scores, places);
    need(answer.refusal == 0 || answer.refusal == CALDURREX_TOO_MANY_WORDS, "a call was refused");
    return answer.refusal == 0 ? (long)answer.count : -1;
}

/* Both programs must give the same rows, or find the room too small. */
static long compare(enum mark mark, size_t block)
{
    memset(memory, 0x55, sizeof memory);
    long ours = list_words(OURS, mark, block), plain = list_words(PLAIN, mark, block);
    const struct memory *a = &memory[OURS], *b = &memory[PLAIN];
    need(ours == plain, "the numbers of words differ");
    need((ours < 0) == (mark == ALL), "the words are not as many as the mark is for");
    size_t rows = ours < 0 ? 0 : (size_t)ours, len = rows * load.n;
    need(memcmp(a->inputs, b->inputs, len) == 0 && memcmp(a->words, b->words, len) == 0, "a row differs");
    need(memcmp(a->scores, b->scores, rows * sizeof a->scores[0]) == 0, "a score differs");
    return ours;
}

static void run(enum program program, enum mark mark, unsigned long count)
{
    for (unsigned long i = 0; i < count; i++) {
        if (program == BOTH)
            compare(mark, i % BLOCKS);
        else
            need((list_words(program, mark, i % BLOCKS) < 0) == (mark == ALL), "a call was answered wrongly");
    }
}

/* Milliseconds a call. By processor time, and the programs in turn for a short while, so that
 * other work on the machine counts little and for both alike. */
static void time_both(enum mark mark, double ms[2])
{
    double spent[2] = {0, 0};
    unsigned long count = 1, done = 0;
    while (spent[OURS] < 0.3) {
        for (int program = OURS; program <= PLAIN; program++) {
            clock_t start = clock();
            run((enum program)program, mark, count);
            spent[program] += (double)(clock() - start) / CLOCKS_PER_SEC;
        }
        done += count;
        if (spent[OURS] < 0.03)
            count *= 2;
    }
    for (int program = OURS; program <= PLAIN; program++)
        ms[program] = 1000 * spent[program] / (double)done;
}

static void print_row(uint32_t m, size_t k, size_t pairs, uint8_t arikan)
{
    double ms[2];
    long words = 0;
    make_load(m, k, pairs, arikan);
    for (size_t block = 0; block < BLOCKS; block++)
        words += compare(FEW, block);
    compare(ALL, 0);
    printf("n = %-4u k = %-2zu ", 1u << m, k);
    if (pairs == 0)
        printf("%-6s", arikan ? "arikan" : "");
    else
        printf("p %-4zu", pairs);
    printf(" %6.1f", (double)words / BLOCKS);
    for (int mark = FEW; mark <= ALL; mark++) {
        time_both((enum mark)mark, ms);
        printf("   %9.4f %9.4f %6.2f", ms[OURS], ms[PLAIN], ms[OURS] / ms[PLAIN]);
    }
    printf("\n");
}

static void time_all(void)
{
    static const size_t sizes[3] = {10, 16, 20};
    printf("milliseconds a call, and ours by plain C. few: with a mark 5 %% below the correlation of the word sent;\n"
           "the words that reach it, so many on average, are counted and then written. all: with a mark that every\n"
           "word reaches and room for one less; the words are counted, and the call is refused with 19\n");
    printf("%23s %6s   %9s %9s %6s   %9s %9s %6s\n", "", "words", "few: ours", "plain C", "ratio", "all: ours",
           "plain C", "ratio");
    for (uint32_t m = 6; m <= 10; m += 2)
        for (size_t i = 0; i < 3; i++)
            print_row(m, sizes[i], 0, 0);
    print_row(8, 16, 0, 1);
    print_row(8, 16, 256, 0);
}

/* The place of a name; count if it is none of them. */
static int place_of(const char *name, const char *const *names, int count)
{
    int i = 0;
    while (i < count && strcmp(name, names[i]) != 0)
        i++;
    return i;
}

int main(int argc, char **argv)
{
    if (argc == 1) {
        time_all();
        return 0;
    }
    int arikan = argc == 8 && strcmp(argv[7], "arikan") == 0, given = argc == 6 || argc == 7 || arikan;
    int program = given ? place_of(argv[1], program_name, PROGRAMS) : PROGRAMS;
    int mark = given ? place_of(argv[2], mark_name, MARKS) : MARKS;
    unsigned long m = given ? strtoul(argv[3], NULL, 10) : 0, k = given ? strtoul(argv[4], NULL, 10) : 0;
    unsigned long pairs = argc > 6 ? strtoul(argv[6], NULL, 10) : 0;
    if (program == PROGRAMS || mark == MARKS || m < 6 || m > 10 || k < 1 || k > MAX_K || pairs > PAIRS_MOST) {
        fprintf(stderr, "bench_words: give a program, a mark, m from 6, k up to 20, a count and, where there are some, "
                        "the number of pairs, and then arikan for that transform; or nothing\n");
        return 1;
    }
    make_load((uint32_t)m, k, pairs, (uint8_t)arikan);
    run((enum program)program, (enum mark)mark, strtoul(argv[5], NULL, 10));
    return 0;
}
