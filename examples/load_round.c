#include "load_round.h"

#include "settings.h"

#include <errno.h>
#include <stdlib.h>
#include <string.h>

/* A round takes no more memory than this, but for one block. */
enum { ROUND_BYTES = 1 << 26, DIRT = 0xa5 };

/* That of a test load's record. */
enum { RECORD_LIST_SIZE = 4 };

static size_t map_len(const struct load_code *code)
{
    return (code->n + 7) / 8;
}

/* ---- memory */

/* So many things of so many bytes each, dirty. */
static void *get(size_t count, size_t size)
{
    void *memory = calloc(count, size);
    if (memory == NULL)
        die("there is no memory (%s); give fewer threads, or a smaller list size or code", strerror(errno));
    return memset(memory, DIRT, count * size);
}

void tables_open(struct load_tables *t, const struct load_code *code)
{
    t->numbers_len = CALDURREX_NUMBERS(code->n, code->list_size);
    t->bytes_len = CALDURREX_BYTES(code->n, code->list_size);
    t->numbers = get(t->numbers_len, sizeof t->numbers[0]);
    t->bytes = get(t->bytes_len, 1);
}

void tables_close(struct load_tables *t)
{
    free(t->numbers);
    free(t->bytes);
}

int tables_are_clear(const struct load_tables *t)
{
    uint32_t any = 0;
    for (size_t i = 0; i < t->numbers_len; i++)
        any |= t->numbers[i];
    for (size_t i = 0; i < t->bytes_len; i++)
        any |= t->bytes[i];
    return any == 0;
}

/* A record here has two bytes, at most the frame number, the map and the soft values. */
void round_open(struct load_round *r, const struct load_code *code)
{
    size_t rows = CALDURREX_ROWS(code->n, code->list_size), record = 2 + 4 + map_len(code) + 2 * code->n;
    size_t bytes = record + 2 * code->k + 2 * rows, scores = code->list_size;
    size_t room = ROUND_BYTES / (bytes + scores * sizeof r->scores[0]) + 1;
    r->code = code;
    r->room = room < ROUND_BLOCKS ? room : ROUND_BLOCKS;
    r->block_len = bytes;
    r->record_len = record;
    r->blocks = get(r->room, sizeof r->blocks[0]);
    r->bytes = get(r->room, bytes);
    r->scores = get(r->room * scores, sizeof r->scores[0]);
    for (size_t i = 0; i < r->room; i++) {
        uint8_t *at = r->bytes + i * bytes;
        r->blocks[i] = (struct load_block){.record = at, .payload = at + record, .extracted = at + record + code->k,
                                           .inputs = at + record + 2 * code->k, .words = at + bytes - rows,
                                           .scores = r->scores + i * scores};
    }
}

void round_close(struct load_round *r)
{
    free(r->blocks);
    free(r->bytes);
    free(r->scores);
}

/* ---- the calls */

static const uint8_t no_pairs[1];

/* The block is as if nothing had ever been made of it. */
static void forget(const struct load_round *r, struct load_block *b)
{
    memset(b->record, DIRT, r->block_len);
    memset(b->scores, DIRT, r->code->list_size * sizeof b->scores[0]);
    b->call = "no call";
    b->refusal = b->rows = 0;
    b->misread = 0;
    b->ceiling = 0;
}

uint32_t round_make(struct load_round *r, uint32_t state, uint32_t first, size_t count)
{
    const struct load_code *code = r->code;
    r->first = first;
    r->count = count;
    for (size_t i = 0; i < count; i++) {
        struct load_block *b = &r->blocks[i];
        forget(r, b);
        struct caldurrex_load made =
            caldurrex_test_load(state, code->m, code->arikan, code->map, map_len(code), no_pairs, 0,
                                first + (uint32_t)i, b->record, r->record_len, b->payload, code->k);
        if (made.refusal != 0)
            die("block %lu: caldurrex_test_load refuses with %lu; " LOAD_FAULTY, r->first + (unsigned long)i,
                (unsigned long)made.refusal);
        if (made.length < 2 * code->n || made.length > r->record_len || made.state == 0)
            die("block %lu: a record of %lu bytes and the next state %lu cannot be; " LOAD_FAULTY,
                r->first + (unsigned long)i, (unsigned long)made.length, (unsigned long)made.state);
        b->length = made.length;
        b->state = state = made.state;
    }
    return state;
}

static int is_misread(const struct load_round *r, const struct load_block *b, const struct caldurrex_job *job)
{
    const struct load_code *code = r->code;
    return job->m != code->m || job->arikan != code->arikan || job->list_size != RECORD_LIST_SIZE ||
           job->stop != code->n || job->pairs != 0 || job->frame != r->first + (unsigned long)(b - r->blocks);
}

void block_serve(const struct load_round *r, struct load_block *b, struct load_tables *t)
{
    const struct load_code *code = r->code;
    size_t n = code->n, rows = CALDURREX_ROWS(n, code->list_size);
    struct caldurrex_job job = caldurrex_read_job(b->record, b->length, t->map, sizeof t->map, t->soft,
                                                  sizeof t->soft / sizeof t->soft[0], t->pairs, sizeof t->pairs);
    uint8_t arikan = (uint8_t)job.arikan;
    b->call = "caldurrex_read_job";
    b->refusal = job.refusal;
    b->misread = job.refusal == 0 && is_misread(r, b, &job);
    if (b->refusal != 0 || b->misread)
        return;
    struct caldurrex_decoded block =
        caldurrex_decode(job.m, arikan, t->map, map_len(code), t->pairs, 0, code->list_size, job.stop, t->soft, n,
                         t->numbers, t->numbers_len, t->bytes, t->bytes_len, b->inputs, rows, b->words, rows,
                         b->scores, code->list_size);
    b->call = "caldurrex_decode";
    b->refusal = block.refusal;
    b->rows = block.rows;
    b->ceiling = block.ceiling;
    if (b->refusal != 0)
        return;
    b->call = "caldurrex_extract";
    b->refusal =
        caldurrex_extract(job.m, arikan, t->map, map_len(code), t->pairs, 0, b->words, n, b->extracted, code->k);
}

/* ---- judging */

/* FNV-1a of 64 bits. */
const uint64_t load_checksum = 14695981039346656037u;

static uint64_t add_bytes(uint64_t checksum, const uint8_t *bytes, size_t len)
{
    for (size_t i = 0; i < len; i++)
        checksum = (checksum ^ bytes[i]) * 1099511628211u;
    return checksum;
}

/* The low byte first, whatever the machine's order is. */
static uint64_t add_number(uint64_t checksum, uint32_t number)
{
    uint8_t bytes[4];
    for (size_t i = 0; i < sizeof bytes; i++)
        bytes[i] = (uint8_t)(number >> (8 * i));
    return add_bytes(checksum, bytes, sizeof bytes);
}

/* In this order: record, payload, next state, row count, ceiling, input rows, words, scores and
 * the payload extracted. */
static uint64_t add_block(uint64_t checksum, const struct load_round *r, const struct load_block *b)
{
    size_t n = r->code->n, k = r->code->k;
    checksum = add_bytes(checksum, b->record, b->length);
    checksum = add_bytes(checksum, b->payload, k);
    checksum = add_number(checksum, b->state);
    checksum = add_number(checksum, b->rows);
    checksum = add_number(checksum, (uint32_t)b->ceiling);
    checksum = add_bytes(checksum, b->inputs, b->rows * n);
    checksum = add_bytes(checksum, b->words, b->rows * n);
    for (size_t i = 0; i < b->rows; i++)
        checksum = add_number(checksum, (uint32_t)b->scores[i]);
    return add_bytes(checksum, b->extracted, k);
}

/* Of the soft values with which a record ends. */
static int32_t sum_of_magnitudes(const struct load_block *b, size_t n)
{
    int32_t sum = 0;
    for (size_t i = 0; i < n; i++) {
        const uint8_t *at = b->record + b->length - 2 * (n - i);
        int32_t bits = at[0] + 256 * at[1];
        sum += bits < 32768 ? bits : 65536 - bits;
    }
    return sum;
}

uint64_t round_judge(const struct load_round *r, uint64_t checksum, unsigned long *given_back)
{
    for (size_t i = 0; i < r->count; i++) {
        const struct load_block *b = &r->blocks[i];
        unsigned long number = r->first + (unsigned long)i;
        int32_t sum = sum_of_magnitudes(b, r->code->n);
        if (b->refusal != 0)
            die("block %lu: %s refuses with %lu; " LOAD_FAULTY, number, b->call, (unsigned long)b->refusal);
        if (b->misread)
            die("block %lu: its record is read as another than was made; " LOAD_FAULTY, number);
        if (b->rows < 1 || b->rows > r->code->list_size)
            die("block %lu: %lu rows cannot be; " LOAD_FAULTY, number, (unsigned long)b->rows);
        if (b->ceiling != sum)
            die("block %lu: the ceiling is %ld and the sum of the magnitudes %ld, which are proved to be the same; "
                LOAD_FAULTY, number, (long)b->ceiling, (long)sum);
        checksum = add_block(checksum, r, b);
        *given_back += memcmp(b->payload, b->extracted, r->code->k) == 0;
    }
    return checksum;
}
