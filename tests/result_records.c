#include "result_records.h"

#include "draw.h"

#include <string.h>

const uint32_t result_read_order[READ_REFUSALS] = {14, 1, 4, 13, 22, 10, 21};

static size_t inputs_of(const struct result_record *r)
{
    return (size_t)r->says.rows << r->says.m;
}

/* ---- good records */

static void pack_number(uint8_t *at, uint32_t number)
{
    at[0] = number & 255;
    at[1] = number >> 8 & 255;
    at[2] = number >> 16 & 255;
    at[3] = number >> 24;
}

/* Eight positions a byte, in which a row that has fewer leaves the high bits 0. */
static void pack_inputs(uint8_t *at, const struct result *r)
{
    size_t n = (size_t)1 << r->m, in_byte = n < 8 ? n : 8;
    for (size_t i = 0; i < r->rows * result_packed_row(r->m); i++) {
        const uint8_t *bits = r->inputs + i * in_byte;
        at[i] = 0;
        for (size_t j = in_byte; j > 0; j--)
            at[i] = (uint8_t)(2 * at[i] + bits[j - 1]);
    }
}

void result_pack(struct result_record *r)
{
    uint8_t *at = r->bytes;
    const uint8_t head[3] = {(uint8_t)r->fields, (uint8_t)r->says.m, (uint8_t)r->says.rows};
    memcpy(at, head, 3);
    at += 3;
    if (r->fields & RESULT_FRAME) {
        pack_number(at, r->says.frame);
        at += 4;
    }
    if (r->fields & RESULT_CEILING) {
        pack_number(at, (uint32_t)r->says.ceiling);
        at += 4;
    }
    for (size_t row = 0; row < r->says.rows; row++)
        pack_number(at + 4 * row, (uint32_t)r->says.scores[row]);
    pack_inputs(at + 4 * r->says.rows, &r->says);
    r->len = result_need(r->says.m, r->says.rows, r->fields);
    r->scores_len = r->says.rows;
    r->inputs_len = inputs_of(r);
}

void result_record_good(struct result_record *r, uint32_t m, uint32_t rows, unsigned fields)
{
    result_draw(&r->says, m, rows, fields);
    r->kind = RECORD_MADE;
    r->fields = fields;
    r->m_of = m;
    r->faults = r->refusal = 0;
    result_pack(r);
}

void result_record_any(struct result_record *r, uint32_t m)
{
    uint32_t rows = result_draw_rows(m);
    result_record_good(r, m, rows, result_draw_fields());
}

/* ---- answers */

uint32_t result_operator_refusal(const struct result_record *r)
{
    if (r->refusal != 0)
        return r->refusal;
    return r->scores_len < r->says.rows ? 10 : 0;
}

uint32_t result_customer_refusal(const struct result_record *r)
{
    if (r->refusal != 0)
        return r->refusal;
    if (r->scores_len < r->says.rows || r->inputs_len < inputs_of(r))
        return 10;
    return r->faults & FAULT_PACKED ? 21 : 0;
}

/* ---- faults */

void result_break(struct result_record *r, enum result_fault fault)
{
    struct result *says = &r->says;
    switch (fault) {
    case RISING:
        result_rise(says, 1 + draw_below(says->rows - 1));
        break;
    case CEILING_BELOW:
        r->fields |= RESULT_CEILING;
        result_sink_ceiling(says);
        break;
    case CEILING_AS_ABSENT:
        r->fields |= RESULT_CEILING;
        says->ceiling = says->scores[0];
        break;
    default:
        r->fields |= RESULT_FRAME;
        says->frame = 0;
    }
    result_pack(r);
    r->faults |= FAULT_RESULT;
    r->refusal = 22;
}

static void break_somehow(struct result_record *r)
{
    size_t first = r->says.rows > 1 ? RISING : CEILING_BELOW;
    for (size_t times = draw_below(3) ? 1 : 2; times > 0; times--)
        result_break(r, (enum result_fault)(first + draw_below(RESULT_FAULTS - first)));
}

void result_set_past_n(struct result_record *r, size_t row, unsigned bit)
{
    r->bytes[result_open_bytes(r->says.rows, r->fields) + row] |= (uint8_t)(1u << bit);
    r->faults |= FAULT_PACKED;
}

void result_set_length(struct result_record *r, size_t len)
{
    if (len > r->len && draw_below(2))
        memset(r->bytes + r->len, 0, len - r->len);
    else if (len > r->len)
        draw_bytes(r->bytes + r->len, len - r->len);
    r->len = len;
}

/* Next to the right one; as for a row or a field less or more; as for the next m or the one
 * before; with each row's bits packed behind those of the row before, or in bytes; three bytes;
 * two low bytes that are right. What would be right or below three is one too long. */
void result_set_record_length(struct result_record *r, size_t which)
{
    uint32_t m = r->says.m, rows = r->says.rows;
    size_t open = result_open_bytes(rows, r->fields), need = r->len, less = draw_below(need - 3);
    const size_t all[BAD_RECORD_LENGTHS] = {
        need - 1, need + 1, need - 4, need + 4, open, open - 1, result_need(m, rows - 1, r->fields),
        result_need(m, rows + 1, r->fields), result_need(m + 1, rows, r->fields), result_need(m - 1, rows, r->fields),
        open + (inputs_of(r) + 7) / 8, open + inputs_of(r), 3, need + 65536, 3 + less, need + 1 + less,
    };
    size_t len = all[which];
    result_set_length(r, len == need || len < 3 ? need + 1 : len);
    r->faults |= FAULT_LENGTH;
    r->refusal = 13;
}

static uint8_t bad_m_byte(uint32_t m)
{
    const uint32_t all[9] = {0, 1, 11, 12, m + 32, m + 64, m + 128, 255, 11 + (uint32_t)draw_below(245)};
    return (uint8_t)all[draw_below(9)];
}

static uint8_t bad_rows_byte(uint32_t rows)
{
    const uint32_t all[8] = {0, 33, 34, rows + 32, rows + 64, rows + 128, 255, 33 + (uint32_t)draw_below(223)};
    return (uint8_t)all[draw_below(8)];
}

static uint8_t bad_field_bits(void)
{
    return (uint8_t)(draw_below(2) ? 4u << draw_below(6) : 4 * (1 + draw_below(63)));
}

/* The two low bytes of the last lengths say less than what is needed. */
void result_set_rooms(struct result_record *r, size_t which)
{
    size_t rows = r->says.rows, all = inputs_of(r), some_rows = draw_below(rows), some = draw_below(all);
    const size_t rooms[ROOMS][2] = {
        {rows - 1, all}, {rows, all - 1}, {rows - 1, all - 1}, {0, all}, {rows, 0}, {0, 0}, {some_rows, all + 7},
        {rows + 7, some},
        {rows, all}, {rows + 1, all}, {rows, all + 1}, {rows + 1, all + 1}, {rows + some % 64, all + some_rows},
        {32, 32768}, {65536 + some_rows, all}, {rows, 65536 + some},
    };
    r->scores_len = rooms[which][0];
    r->inputs_len = rooms[which][1];
    if (which < SHORT_ROOMS)
        r->faults |= FAULT_ROOM;
}

void result_draw_rooms(struct result_record *r)
{
    result_set_rooms(r, SHORT_ROOMS + draw_below(draw_below(16) ? FAR_ROOMS - SHORT_ROOMS : ROOMS - SHORT_ROOMS));
}

void result_record_spoil(struct result_record *r, unsigned faults)
{
    static const uint32_t numbers[5] = {14, 1, 4, 13, 22};
    if (faults & FAULT_RESULT)
        break_somehow(r);
    if (faults & FAULT_PACKED && r->says.m == 2) {
        size_t row = draw_below(r->says.rows);
        result_set_past_n(r, row, 4 + (unsigned)draw_below(4));
    }
    if (faults & FAULT_LENGTH)
        result_set_record_length(r, draw_below(BAD_RECORD_LENGTHS));
    if (faults & FAULT_ROWS)
        r->bytes[2] = bad_rows_byte(r->says.rows);
    if (faults & FAULT_M)
        r->bytes[1] = bad_m_byte(r->says.m);
    if (faults & FAULT_FIELD_MAP)
        r->bytes[0] |= bad_field_bits();
    result_draw_rooms(r);
    if (faults & FAULT_ROOM)
        result_set_rooms(r, draw_below(SHORT_ROOMS));
    r->faults |= faults & (FAULT_FIELD_MAP | FAULT_M | FAULT_ROWS);
    for (size_t j = 5; j > 0; j--)
        if (r->faults >> (j - 1) & 1)
            r->refusal = numbers[j - 1];
}

void result_record_cut(struct result_record *r, size_t len, unsigned faults)
{
    r->len = len;
    if (faults & FAULT_M)
        r->bytes[1] = bad_m_byte(r->says.m);
    if (faults & FAULT_FIELD_MAP)
        r->bytes[0] |= bad_field_bits();
    if (faults & FAULT_ROOM)
        result_set_rooms(r, draw_below(SHORT_ROOMS));
    r->faults = faults;
    r->refusal = len > 0 && faults & FAULT_FIELD_MAP ? 14 : 13;
}

/* ---- bytes of which little is known */

static void change_bytes(struct result_record *r, size_t count)
{
    for (; count > 0; count--) {
        size_t any = draw_below(r->len), byte = draw_below(256);
        const size_t places[4] = {any % 3, any, any, r->len - 1};
        uint8_t *at = r->bytes + places[draw_below(4)];
        const uint8_t values[4] = {0, 255, (uint8_t)byte, (uint8_t)(*at ^ 1u << byte % 8)};
        *at = values[draw_below(4)];
    }
}

void result_record_random(struct result_record *r, enum record_kind kind)
{
    r->kind = kind;
    r->refusal = RESULT_UNKNOWN;
    if (kind == RECORD_RANDOM) {
        result_set_length(r, draw_below(draw_below(2) ? 64 : 5000));
        draw_bytes(r->bytes, r->len);
    } else if (kind == RECORD_RANDOM_BODY) {
        draw_bytes(r->bytes + 3, r->len - 3);
    } else {
        change_bytes(r, 1 + (size_t)(kind - RECORD_CHANGED_1));
    }
    result_draw_rooms(r);
    if (draw_below(8) == 0)
        result_set_rooms(r, draw_below(SHORT_ROOMS));
}
