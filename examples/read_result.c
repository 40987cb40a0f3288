/*
 * A host that writes the result records of two blocks, and shows what the two readers make of
 * them: the customer's, who is told all, and an operator's, who is told nothing of the bits.
 *
 * Build, from the repository's top, after `make target/staticlib/libcaldurrex.a`:
 *
 *   cc -std=c11 -Iinclude examples/read_result.c target/staticlib/libcaldurrex.a
 */
#include "caldurrex.h"

#include <stdio.h>
#include <string.h>

/* The sizes of both codes and the longest list that this host has memory for. */
enum { M = 2, N = 1 << M, LIST = 2 };

/* Lent to the decoder. */
static uint32_t numbers[CALDURREX_NUMBERS(N, LIST)];
static uint8_t bytes[CALDURREX_BYTES(N, LIST)];
static uint8_t inputs[CALDURREX_ROWS(N, LIST)], words[CALDURREX_ROWS(N, LIST)];
static int32_t scores[LIST];

/* Neither code has pairs, and both use the convolutional transform. */
static const uint8_t no_pairs[1], arikan = 0;

/* A code and what was received. */
struct block {
    uint8_t map[1]; /* bit i is 1 where position i is frozen */
    int16_t soft[N];
    uint32_t list_size;
};

struct record {
    uint8_t bytes[CALDURREX_RESULT_BYTES];
    size_t len;
};

/* Decodes a block and writes its result; the refusal. The writer takes what the decoder gave: as
 * many scores as there are rows, and as many input rows. */
static uint32_t make(struct record *record, const struct block *block, uint32_t frame)
{
    struct caldurrex_decoded decoded =
        caldurrex_decode(M, arikan, block->map, sizeof block->map, no_pairs, 0, block->list_size, N, block->soft, N,
                         numbers, sizeof numbers / sizeof numbers[0], bytes, sizeof bytes,
                         inputs, sizeof inputs, words, sizeof words, scores, LIST);
    if (decoded.refusal != 0)
        return decoded.refusal;
    struct caldurrex_length written =
        caldurrex_write_result(M, decoded.rows, frame, decoded.ceiling, scores, decoded.rows,
                               inputs, (size_t)N * decoded.rows, record->bytes, sizeof record->bytes);
    record->len = written.length;
    return written.refusal;
}

/* ---- what the readers are told */

enum { WIDTH = 40 };

/* As lines of text: the answer, and one for each row. */
struct told {
    uint32_t refusal;
    char lines[1 + LIST][2 * WIDTH];
};

/* An operator has no input rows. */
static struct told describe(struct caldurrex_result answer, const int32_t *row_scores, const uint8_t *rows)
{
    struct told told = {.refusal = answer.refusal};
    if (answer.refusal != 0)
        sprintf(told.lines[0], "refused with %u", (unsigned)answer.refusal);
    else
        sprintf(told.lines[0], "m %u, rows %u, frame %u, ceiling %d", (unsigned)answer.m, (unsigned)answer.rows,
                (unsigned)answer.frame, (int)answer.ceiling);
    for (uint32_t r = 0; r < answer.rows; r++) {
        char *at = told.lines[1 + r];
        at += sprintf(at, "row %u score %d%s", (unsigned)r, (int)row_scores[r], rows != NULL ? " input " : "");
        for (size_t i = 0; rows != NULL && i < N; i++)
            at += sprintf(at, "%u", rows[r * N + i]);
    }
    return told;
}

static struct told tell_customer(const struct record *record)
{
    struct caldurrex_result answer =
        caldurrex_read_result(record->bytes, record->len, scores, LIST, inputs, sizeof inputs);
    return describe(answer, scores, inputs);
}

static struct told tell_operator(const struct record *record)
{
    struct caldurrex_result answer = caldurrex_read_result_operator(record->bytes, record->len, scores, LIST);
    return describe(answer, scores, NULL);
}

/* The bytes of a record as printf takes them, and both answers side by side. */
static void show(const char *what, const struct record *record)
{
    struct told customer = tell_customer(record), operator = tell_operator(record);
    printf("%s: ", what);
    for (size_t i = 0; i < record->len; i++)
        printf("\\%03o", record->bytes[i]);
    printf("\n");
    for (size_t i = 0; i < 1 + LIST && operator.lines[i][0] != 0; i++)
        printf("  %-*s%s\n", WIDTH, customer.lines[i], operator.lines[i]);
}

static int same(const struct told *a, const struct told *b)
{
    return memcmp(a, b, sizeof *a) == 0;
}

/* Changes packed bits of a record, which are its last bytes, one for each row. The operator must be
 * told the same as before, and the customer something else. */
static int change(const char *what, struct record *record, uint8_t row_0, uint8_t row_1)
{
    struct told customer = tell_customer(record), operator = tell_operator(record);
    record->bytes[record->len - 2] ^= row_0;
    record->bytes[record->len - 1] ^= row_1;
    show(what, record);
    struct told new_customer = tell_customer(record), new_operator = tell_operator(record);
    return same(&operator, &new_operator) && !same(&customer, &new_customer);
}

int main(void)
{
    const struct block sample = {{0x03}, {5, -3, 2, 7}, 2}, poor = {{0x0e}, {1, -5, 2, 2}, 1};
    struct record record;
    printf("code: n = 4, frozen 0 1; soft values 5 -3 2 7; list size 2\n");
    printf("  %-*s%s\n", WIDTH, "the customer is told", "the operator is told");
    if (make(&record, &sample, 0) != 0)
        return 1;
    show("frame number 0", &record);
    if (make(&record, &sample, 7) != 0)
        return 1;
    show("frame number 7", &record);
    if (!change("packed bits flipped", &record, 0x0f, 0x0f))
        return 1;
    /* For n = 4 the four high bits of a row's byte must be 0. */
    if (!change("a packed bit past n set", &record, 0x00, 0x10) ||
        tell_customer(&record).refusal != CALDURREX_BAD_PACKED_BIT)
        return 1;
    /* The ceiling stands in a record where it is above the first score. */
    printf("code: n = 4, frozen 1 2 3; soft values 1 -5 2 2; list size 1\n");
    if (make(&record, &poor, 0) != 0)
        return 1;
    show("frame number 0", &record);
    return 0;
}
