#include "reference_result.h"

#include "reference_codec.h"

#include <string.h>

/* The bits of a record's first byte: fields, and those that must be 0. Two bytes come behind it
 * in every record. */
enum { HAS_FRAME = 1, HAS_CEILING = 2, MUST_BE_0 = 0xfc, HEAD = 3 };

static size_t packed_row(uint32_t m)
{
    return (((size_t)1 << m) + 7) / 8;
}

static int scores_rise(const int32_t *scores, size_t rows)
{
    for (size_t r = 1; r < rows; r++)
        if (scores[r] > scores[r - 1])
            return 1;
    return 0;
}

/* ---- the writer */

/* The record as far as it is made; the first byte grows with each field that is put in. */
struct made {
    uint8_t bytes[REFERENCE_RESULT_BYTES];
    size_t len;
};

/* Four bytes, the low one first; a negative number is put in by what it leaves modulo 2^32. */
static void add(struct made *r, int64_t number)
{
    uint64_t rest = (uint64_t)number;
    for (int i = 0; i < 4; i++, rest /= 256)
        r->bytes[r->len++] = (uint8_t)(rest % 256);
}

/* Nothing where the value is the one that absence means. */
static void add_field(struct made *r, uint8_t bit, int64_t value, int64_t absent)
{
    if (value == absent)
        return;
    r->bytes[0] |= bit;
    add(r, value);
}

/* The bits of one row, in bytes of its own. */
static void add_row(struct made *r, uint32_t m, const uint8_t *input)
{
    uint8_t *row = r->bytes + r->len;
    for (size_t i = 0; i < (size_t)1 << m; i++)
        row[i / 8] |= (uint8_t)(input[i] << (i % 8));
    r->len += packed_row(m);
}

static int has_more_than_bits(const uint8_t *inputs, size_t len)
{
    for (size_t i = 0; i < len; i++)
        if (inputs[i] > 1)
            return 1;
    return 0;
}

/* The refusals before 10. */
static uint32_t call_refusal(uint32_t m, uint32_t rows, int32_t ceiling, const int32_t *scores, size_t scores_len,
                             const uint8_t *inputs, size_t inputs_len)
{
    if (m < 2 || m > REFERENCE_MAX_M)
        return 1;
    if (rows < 1 || rows > REFERENCE_RESULT_ROWS)
        return 4;
    if (inputs_len != (size_t)rows << m || scores_len != rows)
        return 6;
    if (has_more_than_bits(inputs, inputs_len))
        return 11;
    return scores_rise(scores, rows) || ceiling < scores[0] ? 22 : 0;
}

struct reference_length reference_write_result(uint32_t m, uint32_t rows, uint32_t frame, int32_t ceiling,
                                               const int32_t *scores, size_t scores_len,
                                               const uint8_t *inputs, size_t inputs_len,
                                               uint8_t *record, size_t record_len)
{
    uint32_t refusal = call_refusal(m, rows, ceiling, scores, scores_len, inputs, inputs_len);
    if (refusal != 0)
        return (struct reference_length){refusal, 0};
    struct made r = {.bytes = {0, (uint8_t)m, (uint8_t)rows}, .len = HEAD};
    add_field(&r, HAS_FRAME, frame, 0);
    add_field(&r, HAS_CEILING, ceiling, scores[0]);
    for (size_t row = 0; row < rows; row++)
        add(&r, scores[row]);
    for (size_t row = 0; row < rows; row++)
        add_row(&r, m, inputs + (row << m));
    if (record_len < r.len)
        return (struct reference_length){10, 0};
    memset(record, 0, record_len);
    memcpy(record, r.bytes, r.len);
    return (struct reference_length){0, (uint32_t)r.len};
}

/* ---- what an operator may see */

/* A record's length, and its bytes before the packed ones, as far as they are there. A function
 * that takes this and no record knows nothing of packed bits. */
struct open_part {
    size_t record_len;
    uint8_t bytes[REFERENCE_OPEN_BYTES];
};

/* The refusals that the first three bytes tell, 13 if they are not there. */
static uint32_t head_refusal(const struct open_part *p)
{
    if (p->record_len == 0)
        return 13;
    if (p->bytes[0] & MUST_BE_0)
        return 14;
    if (p->record_len < HEAD)
        return 13;
    if (p->bytes[1] < 2 || p->bytes[1] > REFERENCE_MAX_M)
        return 1;
    return p->bytes[2] < 1 || p->bytes[2] > REFERENCE_RESULT_ROWS ? 4 : 0;
}

/* The bytes in front of the packed ones, by a head that is not refused. */
static size_t open_bytes(const struct open_part *p)
{
    size_t fields = (p->bytes[0] & HAS_FRAME ? 1 : 0) + (p->bytes[0] & HAS_CEILING ? 1 : 0);
    return HEAD + 4 * (fields + p->bytes[2]);
}

/* Takes the head alone, and then, if it is not refused, no byte from the packed ones on. */
static struct open_part open_part_of(const uint8_t *record, size_t record_len)
{
    struct open_part p = {.record_len = record_len};
    memcpy(p.bytes, record, record_len < HEAD ? record_len : HEAD);
    if (head_refusal(&p) == 0) {
        size_t open = open_bytes(&p);
        memcpy(p.bytes, record, record_len < open ? record_len : open);
    }
    return p;
}

/* The next number of four bytes, low byte first; at goes behind it. */
static uint32_t take(const uint8_t **at)
{
    uint32_t number = 0;
    for (size_t i = 4; i > 0; i--)
        number = 256 * number + (*at)[i - 1];
    *at += 4;
    return number;
}

static int32_t take_signed(const uint8_t **at)
{
    int64_t number = take(at);
    return (int32_t)(number < (int64_t)1 << 31 ? number : number - ((int64_t)1 << 32));
}

/* What an open part of the right length says; it may be refused with 22 yet. */
struct said {
    struct reference_result result;
    int32_t scores[REFERENCE_RESULT_ROWS];
};

static void take_apart(const struct open_part *p, struct said *s)
{
    const uint8_t *at = p->bytes + HEAD;
    s->result = (struct reference_result){.m = p->bytes[1], .rows = p->bytes[2]};
    if (p->bytes[0] & HAS_FRAME)
        s->result.frame = take(&at);
    if (p->bytes[0] & HAS_CEILING)
        s->result.ceiling = take_signed(&at);
    for (size_t r = 0; r < s->result.rows; r++)
        s->scores[r] = take_signed(&at);
    if (!(p->bytes[0] & HAS_CEILING))
        s->result.ceiling = s->scores[0];
}

/* The refusals up to 22; if there is none, s becomes what is said. */
static uint32_t open_refusal(const struct open_part *p, struct said *s)
{
    uint32_t refusal = head_refusal(p);
    if (refusal != 0)
        return refusal;
    if (p->record_len != open_bytes(p) + p->bytes[2] * packed_row(p->bytes[1]))
        return 13;
    take_apart(p, s);
    if (p->bytes[0] & HAS_FRAME && s->result.frame == 0)
        return 22;
    if (p->bytes[0] & HAS_CEILING && s->result.ceiling <= s->scores[0])
        return 22;
    return scores_rise(s->scores, s->result.rows) ? 22 : 0;
}

/* The scores, and 0 behind them. */
static void give_scores(const struct said *s, int32_t *scores, size_t scores_len)
{
    memset(scores, 0, scores_len * sizeof scores[0]);
    memcpy(scores, s->scores, s->result.rows * sizeof scores[0]);
}

/* All of an operator's reader but the taking of the open part. */
static struct reference_result read_open(const struct open_part *p, int32_t *scores, size_t scores_len)
{
    struct said s;
    uint32_t refusal = open_refusal(p, &s);
    if (refusal == 0 && scores_len < s.result.rows)
        refusal = 10;
    if (refusal != 0)
        return (struct reference_result){.refusal = refusal};
    give_scores(&s, scores, scores_len);
    return s.result;
}

struct reference_result reference_read_result_operator(const uint8_t *record, size_t record_len,
                                                       int32_t *scores, size_t scores_len)
{
    struct open_part p = open_part_of(record, record_len);
    return read_open(&p, scores, scores_len);
}

/* ---- the customer's reader */

/* Only n = 4 leaves bits past n: the four high ones of each row's only byte. */
static int has_bit_past_n(const uint8_t *packed, uint32_t m, size_t rows)
{
    for (size_t r = 0; m == 2 && r < rows; r++)
        if (packed[r] >= 16)
            return 1;
    return 0;
}

static void give_inputs(const uint8_t *packed, uint32_t m, size_t rows, uint8_t *inputs, size_t inputs_len)
{
    size_t n = (size_t)1 << m;
    memset(inputs, 0, inputs_len);
    for (size_t i = 0; i < n * rows; i++) {
        size_t row = i / n, position = i % n;
        inputs[i] = packed[row * packed_row(m) + position / 8] >> (position % 8) & 1;
    }
}

struct reference_result reference_read_result(const uint8_t *record, size_t record_len,
                                              int32_t *scores, size_t scores_len,
                                              uint8_t *inputs, size_t inputs_len)
{
    struct open_part p = open_part_of(record, record_len);
    struct said s;
    uint32_t refusal = open_refusal(&p, &s);
    if (refusal != 0)
        return (struct reference_result){.refusal = refusal};
    uint32_t m = s.result.m, rows = s.result.rows;
    const uint8_t *packed = record + open_bytes(&p);
    if (scores_len < rows || inputs_len < (size_t)rows << m)
        return (struct reference_result){.refusal = 10};
    if (has_bit_past_n(packed, m, rows))
        return (struct reference_result){.refusal = 21};
    give_scores(&s, scores, scores_len);
    give_inputs(packed, m, rows, inputs, inputs_len);
    return s.result;
}
