/*
 * A host that serves many links on a few threads. Each thread has memory of its own,
 * dirty at first and lent to the decoder for one link after the other; the host clears
 * nothing in between. Every block is decoded once more on memory that no call has
 * used, and must give the same.
 *
 * Build, from the repository's top, after `make target/staticlib/libcaldurrex.a`:
 *
 *   cc -std=c11 -pthread -Iinclude examples/decode_links.c target/staticlib/libcaldurrex.a
 */
#include "caldurrex.h"

#include <pthread.h>
#include <stdio.h>
#include <stdlib.h>
#include <string.h>

enum { THREADS = 4, LINKS = 12, ROUNDS = 6, MAX_N = 1024, MAX_LIST = 32 };

/* ---- links */

/* No code here has pairs: an empty slice, whose pointer is not null. */
static const uint8_t no_pairs[1];

/* The transform of all codes: 0 is the convolutional one, any other byte asks for Arikan's. */
static const uint8_t arikan = 0;

/* A code, a list size, and a state from which payloads and noise are drawn. */
struct link {
    uint32_t m, list_size;
    size_t n, k;
    uint8_t map[MAX_N / 8];
    uint32_t state;
};

static uint32_t draw(struct link *link)
{
    uint32_t s = link->state;
    s ^= s << 13;
    s ^= s >> 17;
    s ^= s << 5;
    return link->state = s;
}

static unsigned weight(size_t i)
{
    unsigned ones = 0;
    for (; i > 0; i /= 2)
        ones += i % 2;
    return ones;
}

/* Freezes the positions of lowest weight. */
static void make_link(struct link *link, uint32_t m, uint32_t list_size, size_t frozen, uint32_t state)
{
    memset(link, 0, sizeof *link);
    link->m = m;
    link->list_size = list_size;
    link->n = (size_t)1 << m;
    link->k = link->n - frozen;
    link->state = state;
    size_t left = frozen;
    for (unsigned w = 0; left > 0; w++)
        for (size_t i = 0; i < link->n && left > 0; i++)
            if (weight(i) == w) {
                link->map[i / 8] |= (uint8_t)(1u << (i % 8));
                left--;
            }
}

static size_t map_len(const struct link *link)
{
    return (link->n + 7) / 8;
}

/* A block of the link as it is received: a payload, encoded, with noise. 1 if the
 * encoder took it. */
static int receive(struct link *link, uint8_t *payload, int16_t *soft)
{
    uint8_t word[MAX_N];
    for (size_t i = 0; i < link->k; i++)
        payload[i] = draw(link) >> 16 & 1;
    if (caldurrex_encode(link->m, arikan, link->map, map_len(link), no_pairs, 0, payload, link->k, word, link->n) != 0)
        return 0;
    for (size_t i = 0; i < link->n; i++)
        soft[i] = (int16_t)((word[i] ? -20 : 20) + (int)(draw(link) % 61) - 30);
    return 1;
}

/* ---- memory lent to the decoder */

struct memory {
    uint32_t *numbers;
    uint8_t *bytes, *inputs, *words;
    int32_t *scores;
    size_t numbers_len, bytes_len, rows_len, scores_len;
};

static void *need(void *memory)
{
    if (memory == NULL) {
        perror("decode_links");
        exit(1);
    }
    return memory;
}

/* Memory for blocks of n positions and list size l. */
static struct memory get_memory(size_t n, size_t l)
{
    struct memory lent = {.numbers_len = CALDURREX_NUMBERS(n, l), .bytes_len = CALDURREX_BYTES(n, l),
                          .rows_len = CALDURREX_ROWS(n, l), .scores_len = l};
    lent.numbers = need(calloc(lent.numbers_len, sizeof lent.numbers[0]));
    lent.bytes = need(calloc(lent.bytes_len, 1));
    lent.inputs = need(calloc(lent.rows_len, 1));
    lent.words = need(calloc(lent.rows_len, 1));
    lent.scores = need(calloc(lent.scores_len, sizeof lent.scores[0]));
    return lent;
}

/* As if the memory had served something else before. */
static void make_dirty(const struct memory *lent)
{
    memset(lent->numbers, 0xa5, lent->numbers_len * sizeof lent->numbers[0]);
    memset(lent->bytes, 0xa5, lent->bytes_len);
    memset(lent->inputs, 0xa5, lent->rows_len);
    memset(lent->words, 0xa5, lent->rows_len);
    memset(lent->scores, 0xa5, lent->scores_len * sizeof lent->scores[0]);
}

static void free_memory(struct memory *lent)
{
    free(lent->numbers);
    free(lent->bytes);
    free(lent->inputs);
    free(lent->words);
    free(lent->scores);
}

static struct caldurrex_decoded decode(const struct link *link, const int16_t *soft, const struct memory *lent)
{
    return caldurrex_decode(link->m, arikan, link->map, map_len(link), no_pairs, 0, link->list_size, (uint32_t)link->n,
                            soft, link->n, lent->numbers, lent->numbers_len, lent->bytes, lent->bytes_len,
                            lent->inputs, lent->rows_len, lent->words, lent->rows_len,
                            lent->scores, lent->scores_len);
}

static int all_zero(const void *memory, size_t len)
{
    const uint8_t *bytes = memory;
    for (size_t i = 0; i < len; i++)
        if (bytes[i] != 0)
            return 0;
    return 1;
}

/* 1 if the used memory holds what the fresh one does, nothing behind it, and nothing
 * in its tables. */
static int holds_the_same(const struct memory *used, const struct memory *fresh)
{
    size_t rows = fresh->rows_len, scores = fresh->scores_len;
    return memcmp(used->inputs, fresh->inputs, rows) == 0 && memcmp(used->words, fresh->words, rows) == 0 &&
           memcmp(used->scores, fresh->scores, scores * sizeof fresh->scores[0]) == 0 &&
           all_zero(used->inputs + rows, used->rows_len - rows) &&
           all_zero(used->words + rows, used->rows_len - rows) &&
           all_zero(used->scores + scores, (used->scores_len - scores) * sizeof used->scores[0]) &&
           all_zero(used->numbers, used->numbers_len * sizeof used->numbers[0]) &&
           all_zero(used->bytes, used->bytes_len);
}

/* ---- threads */

struct worker {
    pthread_t thread;
    unsigned number;
    struct link links[LINKS];
    unsigned long blocks, same, right; /* right: the first row has the payload that was sent */
};

/* Links of different lengths, list sizes and rates, other ones for each thread. */
static void make_links(struct worker *w)
{
    static const uint32_t sizes[LINKS][2] = {{2, 2},  {10, 4}, {3, 32}, {8, 8},  {4, 1},  {9, 16},
                                             {5, 32}, {7, 3},  {6, 4},  {8, 32}, {6, 13}, {10, 32}};
    for (unsigned i = 0; i < LINKS; i++) {
        size_t n = (size_t)1 << sizes[i][0], eighths = 3 + (i + w->number) % 4;
        make_link(&w->links[i], sizes[i][0], sizes[i][1], n * eighths / 8, 1 + 1000 * w->number + i);
    }
}

static int payload_is(const struct link *link, const uint8_t *input, const uint8_t *payload)
{
    size_t taken = 0;
    for (size_t i = 0; i < link->n; i++)
        if (!(link->map[i / 8] >> (i % 8) & 1) && input[i] != payload[taken++])
            return 0;
    return 1;
}

static void serve(struct worker *w, struct link *link, const struct memory *used)
{
    uint8_t payload[MAX_N];
    int16_t soft[MAX_N];
    if (!receive(link, payload, soft))
        return;
    struct memory fresh = get_memory(link->n, link->list_size);
    struct caldurrex_decoded first = decode(link, soft, used), second = decode(link, soft, &fresh);
    int decoded = first.refusal == 0 && second.refusal == 0;
    w->blocks++;
    w->same += decoded && first.rows == second.rows && first.ceiling == second.ceiling && holds_the_same(used, &fresh);
    w->right += decoded && payload_is(link, used->inputs, payload);
    free_memory(&fresh);
}

static void *work(void *argument)
{
    struct worker *w = argument;
    struct memory lent = get_memory(MAX_N, MAX_LIST);
    make_dirty(&lent);
    for (int round = 0; round < ROUNDS; round++)
        for (unsigned i = 0; i < LINKS; i++)
            serve(w, &w->links[i], &lent);
    free_memory(&lent);
    return NULL;
}

int main(void)
{
    static struct worker workers[THREADS];
    int good = 1;
    for (unsigned i = 0; i < THREADS; i++) {
        workers[i].number = i;
        make_links(&workers[i]);
        if (pthread_create(&workers[i].thread, NULL, work, &workers[i]) != 0) {
            fprintf(stderr, "decode_links: no thread\n");
            return 1;
        }
    }
    for (unsigned i = 0; i < THREADS; i++) {
        struct worker *w = &workers[i];
        pthread_join(w->thread, NULL);
        printf("thread %u: %d links, %lu blocks, %lu as on fresh memory, %lu payloads as sent\n", i, LINKS, w->blocks,
               w->same, w->right);
        good &= w->blocks == LINKS * ROUNDS && w->same == w->blocks;
    }
    printf(good ? "all blocks agree\n" : "SOME BLOCKS DIFFER\n");
    return good ? 0 : 1;
}
