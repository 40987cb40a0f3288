#define _DEFAULT_SOURCE /* mmap with MAP_ANONYMOUS */
#include "result_limits.h"

#include "caldurrex.h"
#include "draw.h"
#include "result_check.h"
#include "result_read.h"

#include <stdio.h>
#include <string.h>
#include <sys/mman.h>

/* Bytes that can be read, of which the machine has no more than the first ones; all others are 0. */
enum { FIRST = 65536 };
static uint8_t *far;

static const size_t beyond = (size_t)UINT32_MAX + 1;

/* For as many scores: the longest slice. */
static int get_far(void)
{
    size_t len = beyond * sizeof(int32_t) + FIRST;
    if (beyond == 0)
        return 0;
    far = mmap(NULL, len, PROT_READ, MAP_PRIVATE | MAP_ANONYMOUS | MAP_NORESERVE, -1, 0);
    return far != MAP_FAILED && mprotect(far, FIRST, PROT_READ | PROT_WRITE) == 0;
}

/* These bytes, and then nothing but 0. */
static const void *far_behind(const void *bytes, size_t len)
{
    memset(far, 0, FIRST);
    return memcpy(far, bytes, len);
}

static void leave_far(void)
{
    munmap(far, beyond * sizeof(int32_t) + FIRST);
}

static void try_writer(uint32_t m)
{
    static struct result_call c;
    static uint8_t record[CALDURREX_RESULT_BYTES], kept[CALDURREX_RESULT_BYTES];
    struct caldurrex_length answers[2];
    result_call_any(&c, m);
    const struct result *says = &c.says;
    draw_bytes(record, sizeof record);
    memcpy(kept, record, sizeof record);
    answers[0] = caldurrex_write_result(m, says->rows, says->frame, says->ceiling, says->scores, c.scores_len,
                                        far_behind(says->inputs, c.inputs_len), beyond + c.inputs_len, record,
                                        sizeof record);
    answers[1] = caldurrex_write_result(m, says->rows, says->frame, says->ceiling,
                                        far_behind(says->scores, c.scores_len * sizeof says->scores[0]),
                                        beyond + c.scores_len, says->inputs, c.inputs_len, record, sizeof record);
    for (size_t i = 0; i < 2; i++)
        if (answers[i].refusal != 6 || answers[i].length != 0 || memcmp(record, kept, sizeof record) != 0)
            result_fail(&c, "2^32 inputs or scores too many are not refused with 6, or the call wrote");
}

static void try_readers(uint32_t m)
{
    static struct result_record r;
    static int32_t scores[RESULT_MAX_ROWS], kept_scores[RESULT_MAX_ROWS];
    static uint8_t inputs[RESULT_MAX_ROWS << RESULT_MAX_M], kept_inputs[sizeof inputs];
    struct caldurrex_result answers[2];
    result_record_any(&r, m);
    draw_bytes((uint8_t *)scores, sizeof scores);
    memcpy(kept_scores, scores, sizeof scores);
    draw_bytes(inputs, sizeof inputs);
    memcpy(kept_inputs, inputs, sizeof inputs);
    far_behind(r.bytes, r.len);
    r.len += beyond;
    answers[0] = caldurrex_read_result(far, r.len, scores, RESULT_MAX_ROWS, inputs, sizeof inputs);
    answers[1] = caldurrex_read_result_operator(far, r.len, scores, RESULT_MAX_ROWS);
    for (size_t i = 0; i < 2; i++)
        if (answers[i].refusal != 13 || answers[i].m != 0 || memcmp(scores, kept_scores, sizeof scores) != 0 ||
            memcmp(inputs, kept_inputs, sizeof inputs) != 0)
            result_record_fail(&r, "a record with 2^32 bytes too many is not refused with 13, or the call wrote");
}

void result_try_above_32_bits(void)
{
    if (!get_far()) {
        printf("slices above 2^32 elements: left out, there is no room for them\n");
        return;
    }
    for (uint32_t m = RESULT_MIN_M; m <= RESULT_MAX_M; m++) {
        try_writer(m);
        try_readers(m);
    }
    leave_far();
}
