/*
 * Runs the program once for each of many records and compares what it prints, byte for
 * byte, with what the rules say.
 *
 *   compare_program PATH [seed [records]]
 *
 * A run with the same seed and records makes the same inputs.
 */
#include "draw.h"
#include "job_calls.h"
#include "program_tally.h"
#include "reference_job.h"
#include "run_program.h"

#include <stdio.h>
#include <stdlib.h>
#include <string.h>

enum { SERVED_M = 6, SERVED_LIST = 4 };

static const char *program;
static unsigned long seed, runs, in_pieces;

static void fail(const uint8_t *input, size_t len, const char *what)
{
    printf("compare_program: %s\n  input of %zu bytes", what, len);
    for (size_t i = 0; i < len && i < 160; i++)
        printf(" %02x", input[i]);
    printf("\ncompare_program: FAILED at run %lu (seed %lu)\n", runs, seed);
    exit(1);
}

/* ---- one run */

static void run(const uint8_t *input, size_t len, const char *want, size_t want_len)
{
    char out[REFERENCE_OUTPUT_ROOM];
    size_t first = len > 1 && runs % 4 == 3 ? 1 + draw_below(len < 4096 ? len - 1 : 4095) : 0;
    runs++;
    in_pieces += first > 0;
    struct run r = run_program(program, input, len, first, out, sizeof out);
    if (r.status != 0) {
        printf("  status %d%s\n", r.status, r.status > 256 ? ", 256 and the signal" : "");
        fail(input, len, "the program did not end with status 0");
    }
    if (r.len != want_len || memcmp(out, want, want_len) != 0) {
        printf("--- must print %zu bytes:\n%.*s--- printed %zu bytes:\n%.*s---\n", want_len, (int)want_len, want, r.len,
               (int)(r.len < sizeof out ? r.len : sizeof out), out);
        fail(input, len, "the output differs");
    }
}

/* What the making of a record tells of the answer: a refusal number, or 0 if served. */
static uint32_t made(const struct job_record *r)
{
    if (r->len > PROGRAM_MAX_INPUT)
        return 13;
    if (r->refusal != 0)
        return r->refusal;
    return r->m > SERVED_M || r->list_size > SERVED_LIST ? 8 : 0;
}

static void check(const struct job_record *r)
{
    char want[REFERENCE_OUTPUT_ROOM];
    size_t want_len = reference_output(r->bytes, r->len, want);
    if (made(r) != JOB_UNKNOWN && program_answer(want) != made(r))
        fail(r->bytes, r->len, "the reference answers otherwise than the record was made for");
    run(r->bytes, r->len, want, want_len);
    program_tally(r, want);
}

/* ---- inputs whose outputs are written here */

static void run_text(const char *bytes, size_t len, const char *want)
{
    char by_reference[REFERENCE_OUTPUT_ROOM];
    const uint8_t *input = (const uint8_t *)bytes;
    size_t want_len = reference_output(input, len, by_reference);
    if (want_len != strlen(want) || memcmp(want, by_reference, want_len) != 0)
        fail(input, len, "the reference's output is not the one written here");
    run(input, len, want, want_len);
}

/* All of one byte but for the first two. */
static void run_long(size_t len, uint8_t first, uint8_t second, const char *want)
{
    static char bytes[JOB_ROOM];
    memset(bytes, 0, sizeof bytes);
    bytes[0] = (char)first;
    bytes[1] = (char)second;
    run_text(bytes, len, want);
}

static void run_examples(void)
{
    run_text("\x01\x02\x02\x03\x05\x00\xfd\xff\x02\x00\x07\x00", 12,
             "frame 0 rows 2 ceiling 13\n0 13 0010 0110\n1 11 0000 0000\n");
    run_text("\x04\x02\xff\xff\xff\xff\x03\x05\x00\xfd\xff\x02\x00\x07\x00", 15,
             "frame 4294967295 rows 4 ceiling 13\n"
             "0 13 0010 0110\n1 11 0000 0000\n2 -11 0001 1111\n3 -13 0011 1001\n");
    run_text("\x07\x02\x02\x00\x00\x00\x00\x00\x80\x03\x05\x00\xfd\xff\x02\x00\x07\x00", 18,
             "frame 2147483648 rows 1 ceiling 17\n0 17 0000 0000\n");
    run_text("\x01\x02\x01\x0e\x01\x00\xfb\xff\x02\x00\x02\x00", 12,
             "frame 0 rows 1 ceiling 8\n0 -2 1000 1000\n");
    run_text("\x01\x02\x02\x0e\x01\x00\xfb\xff\x02\x00\x02\x00", 12,
             "frame 0 rows 2 ceiling 0\n0 0 0000 0000\n1 -2 1000 1000\n");
    run_text("\x00\x02\x0f\x01\xf8\x01\xf8\x01\xf8\x01\xf8", 11,
             "frame 0 rows 1 ceiling -8188\n0 -8188 0000 0000\n");
    run_text("\x00\x02\x0f\x00\xf8\x00\xf8\x00\xf8\x00\xf8", 11,
             "frame 0 rows 1 ceiling -8188\n0 -8188 0000 0000\n");
    run_text("\x00\x02\x0f\xff\x07\xff\x07\xff\x07\xff\x07", 11,
             "frame 0 rows 1 ceiling 8188\n0 8188 0000 0000\n");
    run_text("\x09\x02\x02\x0d\x03\x00\x02\x00\x01\x00\x03\x00\x01\x00\x03\x00\x02\x00"
             "\x05\x00\xfd\xff\x02\x00\x07\x00", 26,
             "frame 0 rows 2 ceiling 11\n0 11 0000 0000\n1 -3 0110 1010\n");
    run_text("\x09\x02\x02\x03\x00\x00\x05\x00\xfd\xff\x02\x00\x07\x00", 14,
             "frame 0 rows 2 ceiling 13\n0 13 0010 0110\n1 11 0000 0000\n");
    run_text("\x08\x02\x0d\x01\x00\x02\x00\x02\x00\x05\x00\xfd\xff\x02\x00\x07\x00", 17, "refused 15\n");
    run_text("\x08\x02\x0d\x01\x01", 5, "refused 15\n");
    run_text("\x08\x02\x0d\x01", 4, "refused 13\n");
    run_text("\x00\x02\x0f\x00\x00\xff\xf7\x00\x00\x00\x00", 11, "refused 7\n");
    run_text("", 0, "refused 13\n");
    run_text("\x00", 1, "refused 13\n");
    run_text("\x08", 1, "refused 13\n");
    run_text("\x20", 1, "refused 14\n");
    static const size_t limit[2] = {PROGRAM_MAX_INPUT, PROGRAM_MAX_INPUT + 1};
    for (int past = 0; past < 2; past++) {
        run_long(limit[past], 0x20, 2, past ? "refused 13\n" : "refused 14\n");
        run_long(limit[past], 0x00, 1, past ? "refused 13\n" : "refused 1\n");
        run_long(limit[past], 0x00, 2, "refused 13\n");
    }
    run_long(JOB_ROOM, 0x20, 0, "refused 13\n");
}

/* With Arikan's transform; the bit behind the one for it must be 0. */
static void run_arikan_examples(void)
{
    run_text("\x11\x02\x02\x03\x05\x00\xfd\xff\x02\x00\x07\x00", 12,
             "frame 0 rows 2 ceiling 11\n0 11 0000 0000\n1 3 0011 0101\n");
    run_text("\x10\x02\x03\x05\x00\xfd\xff\x02\x00\x07\x00", 11,
             "frame 0 rows 4 ceiling 11\n"
             "0 11 0000 0000\n1 3 0011 0101\n2 -3 0010 1010\n3 -11 0001 1111\n");
    run_text("\x19\x02\x02\x0d\x03\x00\x02\x00\x01\x00\x03\x00\x01\x00\x03\x00\x02\x00"
             "\x05\x00\xfd\xff\x02\x00\x07\x00", 26,
             "frame 0 rows 2 ceiling 13\n0 13 0110 0110\n1 11 0000 0000\n");
    run_text("\x10", 1, "refused 13\n");
    run_text("\x30\x02\x03\x05\x00\xfd\xff\x02\x00\x07\x00", 11, "refused 14\n");
}

/* ---- soft values on both sides of the limits, and the ends of 16 bits, in every size that is served */

static void run_soft_values(void)
{
    static const int16_t values[6] = {-2048, 2047, -2049, 2048, -32768, 32767};
    struct job_record r;
    for (uint32_t m = JOB_MIN_M; m <= SERVED_M; m++) {
        size_t n = (size_t)1 << m, places[3] = {0, n - 1, draw_below(n)};
        for (size_t which = 0; which < 18; which++) {
            job_good(&r, m, 0, 0);
            r.soft[places[which % 3]] = values[which / 3];
            r.refusal = which / 3 < 2 ? 0 : 7;
            job_pack(&r);
            check(&r);
        }
    }
}

/* ---- every size on both sides of what the program serves, every kind of pairs, sets of faults */

static void run_limits(void)
{
    struct job_record r;
    for (uint32_t l = 1; l <= JOB_MAX_LIST; l++) {
        job_good(&r, JOB_MIN_M + l % (SERVED_M - 1), JOB_LIST_SIZE | (unsigned)draw_below(JOB_FIELD_SETS), 0);
        r.list_size = l;
        job_pack(&r);
        check(&r);
    }
    for (uint32_t m = JOB_MIN_M; m <= JOB_MAX_M; m++) {
        job_good(&r, m, 0, 0);
        check(&r);
        job_good(&r, m, JOB_FIELD_SETS - 1, JOB_FIELD_SETS - 1);
        check(&r);
    }
    for (uint32_t i = 0; i < 4 * PAIR_KINDS * (SERVED_M - 1); i++) {
        job_paired(&r, JOB_MIN_M + i % (SERVED_M - 1), i % 2 ? JOB_STOP : 0, (enum pair_kind)(i % PAIR_KINDS));
        check(&r);
    }
    for (unsigned faults = 1; faults < FAULT_SETS; faults += 1 + (unsigned)draw_below(7)) {
        job_good(&r, JOB_MIN_M, (unsigned)draw_below(JOB_FIELD_SETS), 0);
        r.kind = JOB_SEVERAL_FAULTS;
        job_spoil(&r, faults);
        check(&r);
    }
}

/* Two of five are served; the rest are of all kinds in turn. */
static void run_records(unsigned long records)
{
    unsigned long others = 0;
    for (unsigned long i = 0; i < records; i++) {
        struct job_record r;
        job_make(&r, i % 5 < 2 ? JOB_SERVED : (enum job_kind)(others++ % JOB_KINDS));
        check(&r);
    }
}

int main(int argc, char **argv)
{
    unsigned long records = 1600;
    if (argc < 2) {
        fprintf(stderr, "usage: compare_program PATH [seed [records]]\n");
        return 2;
    }
    program = argv[1];
    seed = argc > 2 ? strtoul(argv[2], NULL, 10) : 1;
    if (argc > 3)
        records = strtoul(argv[3], NULL, 10);
    printf("compare_program: %s, seed %lu, records %lu\n", program, seed, records);
    draw_seed(seed);
    run_examples();
    run_arikan_examples();
    run_soft_values();
    run_limits();
    run_records(records);
    if (!program_tally_report(runs) || in_pieces == 0) {
        printf("compare_program: FAILED: some record, answer, ceiling, transform or kind of pairs never came, or too "
               "few were served (seed %lu)\n", seed);
        return 1;
    }
    printf("compare_program: %lu runs agree, %lu of them with the input in two pieces, %lu served with Arikan's "
           "transform (seed %lu)\n", runs, in_pieces, program_tally_arikan(), seed);
    return 0;
}
