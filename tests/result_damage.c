#include "result_limits.h"

#include "draw.h"
#include "result_tally.h"
#include "result_try.h"

enum { TIMES = 4 };

static struct result_record r;

static void try_as(unsigned fault, uint32_t refusal)
{
    r.faults = fault;
    r.refusal = refusal;
    result_try_record(&r);
}

/* ---- the head */

/* Each bit that names nothing, with each set of those that name a field. */
static void try_field_maps(uint32_t m)
{
    for (unsigned i = 0; i < 6 * TIMES * RESULT_FIELD_SETS; i++) {
        result_record_good(&r, m, result_draw_rows(m), i % RESULT_FIELD_SETS);
        r.bytes[0] |= (uint8_t)(4u << (i / RESULT_FIELD_SETS % 6));
        try_as(FAULT_FIELD_MAP, 14);
    }
}

static void try_numbers(uint32_t m)
{
    static const uint8_t bad_m[8] = {0, 1, 11, 12, 34, 130, 254, 255}, bad_rows[8] = {0, 33, 34, 64, 65, 128, 129, 255};
    for (size_t which = 0; which < 8 * TIMES; which++) {
        result_record_any(&r, m);
        r.bytes[1] = bad_m[which % 8];
        try_as(FAULT_M, 1);
        result_record_any(&r, m);
        r.bytes[2] = bad_rows[which % 8];
        try_as(FAULT_ROWS, 4);
    }
}

/* Without the refusal of m or of the row count nothing would be wrong with these. */
static void try_laid_out(uint32_t m)
{
    static const uint32_t bad_m[3] = {0, 1, 11};
    for (size_t which = 0; which < 2 * TIMES; which++) {
        unsigned fields = result_draw_fields();
        result_record_good(&r, m, which % 2 ? 0 : 33, fields);
        try_as(FAULT_ROWS, 4);
        uint32_t rows = result_draw_rows(m);
        result_record_good(&r, bad_m[draw_below(3)], rows, fields);
        r.m_of = m;
        try_as(FAULT_M, 1);
    }
}

/* ---- lengths and rooms */

static void try_lengths(uint32_t m)
{
    for (size_t which = 0; which < TIMES * BAD_RECORD_LENGTHS; which++) {
        result_record_any(&r, m);
        result_set_record_length(&r, which % BAD_RECORD_LENGTHS);
        result_try_record(&r);
    }
}

/* Records of no byte, one and two, with each set of faults that these can have. */
static void try_short(uint32_t m)
{
    static const unsigned can_have[3] = {FAULT_ROOM, FAULT_ROOM | FAULT_FIELD_MAP,
                                         FAULT_ROOM | FAULT_FIELD_MAP | FAULT_M};
    for (unsigned i = 0; i < 3 * TIMES * 64; i++) {
        size_t len = i % 3;
        unsigned faults = i / 3 % 64;
        if (faults & ~can_have[len])
            continue;
        result_record_any(&r, m);
        result_record_cut(&r, len, faults);
        result_try_record(&r);
    }
}

static void try_rooms(uint32_t m)
{
    for (size_t which = 0; which < TIMES * ROOMS; which++) {
        result_record_any(&r, m);
        result_set_rooms(&r, which % ROOMS);
        result_try_record(&r);
    }
}

/* ---- values */

static void try_results(uint32_t m)
{
    for (size_t which = 0; which < 4 * TIMES * RESULT_FAULTS; which++) {
        uint32_t rows = result_draw_rows(m);
        enum result_fault fault = (enum result_fault)(which % RESULT_FAULTS);
        result_record_good(&r, m, fault == RISING && rows == 1 ? 2 : rows, result_draw_fields());
        result_break(&r, fault);
        result_try_record(&r);
    }
}

/* At every row behind the first one, scores that are the same, which is no fault, and then such
 * that rise. Where n is large, no rows follow on most of them. */
static void try_rises(uint32_t m)
{
    static const uint32_t rows[5] = {2, 3, 4, 5, 32};
    for (size_t which = 0; which < 5 * TIMES; which++)
        for (uint32_t at = 1; at < rows[which % 5]; at++) {
            result_record_good(&r, m, m < 7 || at < 3 ? rows[which % 5] : at + 1, result_draw_fields());
            if (which < 5) {
                r.says.scores[at] = r.says.scores[at - 1];
                result_pack(&r);
                result_try_record(&r);
                continue;
            }
            result_rise(&r.says, at);
            result_pack(&r);
            try_as(FAULT_RESULT, 22);
        }
}

/* A ceiling that stands: the first score, next to it above and below, the highest and the lowest. */
static void try_ceilings(uint32_t m)
{
    for (size_t which = 0; which < 10 * END_NUMBERS; which++) {
        int64_t first = result_end_number(which % END_NUMBERS);
        const int64_t ceilings[5] = {first, first + 1, first - 1, INT32_MAX, INT32_MIN};
        int64_t ceiling = ceilings[which / END_NUMBERS % 5];
        if (ceiling < INT32_MIN || ceiling > INT32_MAX)
            continue;
        uint32_t rows = result_draw_rows(m);
        result_record_good(&r, m, rows, RESULT_CEILING | result_draw_fields());
        result_hold(r.says.scores, r.says.rows, (int32_t)first);
        r.says.scores[0] = (int32_t)first;
        r.says.ceiling = (int32_t)ceiling;
        result_pack(&r);
        if (ceiling > first)
            result_try_record(&r);
        else
            try_as(FAULT_RESULT, 22);
    }
}

/* Each bit past n = 4, alone in each of 32 rows; then every byte of one row. */
static void try_past_n(void)
{
    for (unsigned i = 0; i < 4 * TIMES * RESULT_MAX_ROWS; i++) {
        result_record_good(&r, 2, RESULT_MAX_ROWS, result_draw_fields());
        result_set_past_n(&r, i / 4 % RESULT_MAX_ROWS, 4 + i % 4);
        result_try_record(&r);
    }
    for (unsigned byte = 0; byte < 256; byte++) {
        result_record_good(&r, 2, 1, result_draw_fields());
        for (unsigned i = 0; i < 4; i++)
            r.says.inputs[i] = byte >> i & 1;
        result_pack(&r);
        for (unsigned bit = 4; bit < 8; bit++)
            if (byte >> bit & 1)
                result_set_past_n(&r, 0, bit);
        result_try_record(&r);
    }
}

/* ---- all of them */

void result_try_damage(uint32_t m)
{
    try_field_maps(m);
    try_numbers(m);
    try_laid_out(m);
    try_lengths(m);
    try_short(m);
    try_rooms(m);
    try_results(m);
    try_rises(m);
    try_ceilings(m);
    if (m == 2)
        try_past_n();
    for (unsigned faults = 0; faults < TIMES * READ_FAULT_SETS; faults++) {
        result_record_any(&r, m);
        result_record_spoil(&r, faults % READ_FAULT_SETS);
        result_try_record(&r);
    }
    for (size_t bit = 0; bit < 8 * TIMES * FLIPPED_BYTES; bit++) {
        result_record_good(&r, m, result_draw_rows(m), RESULT_FRAME | RESULT_CEILING);
        result_try_flip(&r, bit % (8 * FLIPPED_BYTES));
    }
}
