/*
 * Compares the record reader of the library with the reference one, at every m.
 *
 *   compare_job [seed [rounds]]
 *
 * A run with the same seed and rounds makes the same calls.
 */
#include "draw.h"
#include "job_calls.h"
#include "job_check.h"
#include "job_pairs.h"

#include <stdio.h>
#include <stdlib.h>
#include <string.h>

/* ---- the examples of the rules */

static const struct example {
    const char *bytes;
    size_t len;
    uint32_t refusal;
} examples[] = {
    {"", 0, 13},
    {"\x00", 1, 13},
    {"\x08", 1, 13},
    {"\x10", 1, 13},
    {"\x1f", 1, 13},
    {"\x20", 1, 14},
    {"\x30", 1, 14},
    {"\x40", 1, 14},
    {"\x80", 1, 14},
    {"\x20\x01", 2, 14},
    {"\xf8\x02", 2, 14},
    {"\x10\x01", 2, 1},
    {"\x10\x02", 2, 13},
    {"\x18\x02\x0d\xff", 4, 13},
    {"\x18\x02\x0d\x01\x01", 5, 15},
    {"\x10\x02\x10\0\0\0\0\0\0\0\0", 11, 3},
    {"\x30\x02\x03\0\0\0\0\0\0\0\0", 11, 14},
    {"\x08\x01", 2, 1},
    {"\x08\x02", 2, 13},
    {"\x08\x02\x0d", 3, 13},
    {"\x08\x02\x0d\xff", 4, 13},
    {"\x08\x02\x0d\x01\x01", 5, 15},
    {"\x08\x02\x0d\x00\x01", 5, 13},
    {"\x08\x02\x0d\x01\x00\x02\x00\x01", 8, 13},
    {"\x08\x02\x0d\x01\x00\x02\x00\x02\x00\0\0\0\0\0\0\0\0", 17, 15},
    {"\x08\x02\x1d\x01\x00\x02\x00\x02\x00\0\0\0\0\0\0\0\0", 17, 3},
    {"\x09\x02\x00\x0d\x01\x00\x02\x00\x02\x00\0\0\0\0\0\0\0\0", 18, 15},
    {"\x09\x02\x00\x0d\x01\x00\x02\x00\x01\x00\0\0\0\0\0\0\0\0", 18, 4},
    {"\x00\x01", 2, 1},
    {"\x00\x02", 2, 13},
    {"\x00\x02\x10\0\0\0\0\0\0\0\0", 11, 3},
    {"\x01\x02\x00\x00\0\0\0\0\0\0\0\0", 12, 4},
    {"\x02\x02\x05\x00\x00\0\0\0\0\0\0\0\0", 13, 5},
    {"\x00\x02\x00\xff\xf7\0\0\0\0\0\0", 11, 7},
    {"\x00\x02\x00\x00\x08\0\0\0\0\0\0", 11, 7},
    {"\x00\x02\x00\x00\x80\0\0\0\0\0\0", 11, 7},
    {"\x00\x02\x00\xff\x7f\0\0\0\0\0\0", 11, 7},
};

static void run_examples(void)
{
    struct job_record r = {.kind = JOB_GOOD, .fields = JOB_LIST_SIZE, .m = 2, .list_size = 2, .stop = 4,
                           .map = {3}, .soft = {5, -3, 2, 7}, .len = 12};
    memcpy(r.bytes, "\x01\x02\x02\x03\x05\x00\xfd\xff\x02\x00\x07\x00", 12);
    job_check(&r, 1, 4, 0);
    job_check(&r, 3, 9, 7);
    static const int16_t ends[4] = {-2048, 2047, -2047, 7};
    memcpy(r.soft, ends, sizeof ends);
    memcpy(r.bytes, "\x01\x02\x02\x03\x00\xf8\xff\x07\x01\xf8\x07\x00", 12);
    job_check(&r, 1, 4, 0);
    /* With Arikan's transform: the bit for it takes no bytes. */
    r.arikan = 1;
    r.bytes[0] = 0x11;
    job_check(&r, 1, 4, 0);
    r.arikan = 0;
    for (size_t i = 0; i < sizeof examples / sizeof examples[0]; i++) {
        memcpy(r.bytes, examples[i].bytes, examples[i].len);
        r.len = examples[i].len;
        r.refusal = examples[i].refusal;
        job_check(&r, 1, 4, 1024);
    }
}

/* ---- what is lent */

/* Exactly long enough, longer, one too short or empty. */
static size_t any_length(size_t need)
{
    size_t lengths[5] = {need, need + 1, need > 0 ? need - 1 : 0, 0, need + draw_below(1000)};
    return lengths[draw_below(5)];
}

/* The record with slices of so many sets of lengths. */
static void try_slices(const struct job_record *r, size_t sets)
{
    for (; sets > 0; sets--)
        job_check(r, any_length(job_map_len(r->m)), any_length((size_t)1 << r->m), any_length(r->pairs.len));
}

/* ---- both sides of every limit */

static void try_first_bytes(uint32_t m)
{
    struct job_record r;
    for (unsigned byte = 0; byte < 256; byte++) {
        job_good(&r, m, byte % JOB_FIELD_SETS, 0);
        r.arikan = byte / JOB_ARIKAN % 2;
        r.bytes[0] = (uint8_t)byte;
        job_check_as(&r, byte < JOB_FIRST_BYTES ? 0 : 14);
        /* With pairs, another m finds their number at another place. */
        job_good(&r, m, (unsigned)draw_below(JOB_FIELD_SETS), 0);
        r.bytes[1] = (uint8_t)byte;
        if (byte != m)
            job_check_as(&r, byte < JOB_MIN_M || byte > JOB_MAX_M ? 1 : r.fields & JOB_PAIRS ? JOB_UNKNOWN : 13);
    }
}

static void try_lengths(uint32_t m, unsigned fields)
{
    struct job_record r;
    job_good(&r, m, fields, 0);
    size_t right = r.len;
    memset(r.bytes + right, 0, 64);
    for (r.len = 0; r.len < right + 64; r.len += r.len < 32 || r.len + 16 > right ? 1 : 1 + draw_below(64))
        if (r.len != right)
            job_check_as(&r, 13);
}

static void try_stop(uint32_t m, uint32_t p)
{
    struct job_record r;
    job_good(&r, m, JOB_STOP | (unsigned)draw_below(JOB_FIELD_SETS), 0);
    r.stop = p;
    job_pack(&r);
    job_check_as(&r, p > (uint32_t)1 << m ? 5 : 0);
}

/* Every list size; stop positions below 40, round n and, with gaps, up to the last one
 * that two bytes can say. */
static void try_fields(uint32_t m)
{
    struct job_record r;
    uint32_t n = (uint32_t)1 << m;
    for (uint32_t l = 0; l < 256; l++) {
        job_good(&r, m, JOB_LIST_SIZE | (unsigned)draw_below(JOB_FIELD_SETS), 0);
        r.list_size = l;
        job_pack(&r);
        job_check_as(&r, l < 1 || l > JOB_MAX_LIST ? 4 : 0);
    }
    for (uint32_t p = 0; p < 40; p++)
        try_stop(m, p);
    for (uint32_t p = n - 4; p <= n + 4; p++)
        try_stop(m, p);
    for (uint32_t p = 0; p < 65536; p += 255)
        try_stop(m, p);
}

static void try_soft_values(uint32_t m)
{
    static const int16_t values[10] = {-2047, 2047, -2048, 2048, -2049, 2049, -32768, 32767, -1, 256};
    size_t n = (size_t)1 << m;
    for (size_t i = 0; i < n; i += i < 64 || i + 8 >= n ? 1 : 61) {
        for (size_t which = 0; which < 10; which++) {
            struct job_record r;
            job_good(&r, m, (unsigned)draw_below(JOB_FIELD_SETS), 0);
            r.soft[i] = values[which];
            job_pack(&r);
            job_check_as(&r, values[which] < -2048 || values[which] > 2047 ? 7 : 0);
        }
    }
}

static void try_maps_of_4(void)
{
    struct job_record r;
    for (unsigned bits = 0; bits < 256; bits++) {
        job_good(&r, 2, (unsigned)draw_below(JOB_FIELD_SETS), 0);
        r.map[0] = bits % 16;
        job_pair(&r, r.fields & JOB_PAIRS ? pairs_any_kind() : PAIRS_NONE);
        r.map[0] = (uint8_t)bits;
        job_pack(&r);
        job_check_as(&r, bits < 16 ? 0 : 3);
    }
}

static void try_limits(uint32_t m)
{
    try_first_bytes(m);
    for (unsigned fields = 0; fields < JOB_FIELD_SETS; fields++)
        try_lengths(m, fields);
    try_fields(m);
    try_soft_values(m);
    if (m == 2)
        try_maps_of_4();
}

/* ---- random records */

/* Every set of fields, each with every part of it as when absent. */
static void try_good(uint32_t m)
{
    struct job_record r;
    for (unsigned fields = 0; fields < JOB_FIELD_SETS; fields++) {
        for (unsigned plain = 0; plain < JOB_FIELD_SETS; plain++) {
            if (plain & ~fields)
                continue;
            job_good(&r, m, fields, plain);
            try_slices(&r, 20);
        }
    }
}

/* In five rounds every set of faults. */
static void try_faults(uint32_t m, unsigned long round)
{
    struct job_record r;
    for (unsigned faults = round % 5; faults < FAULT_SETS; faults += 5) {
        job_good(&r, m, (unsigned)draw_below(JOB_FIELD_SETS), 0);
        r.kind = JOB_SEVERAL_FAULTS;
        job_spoil(&r, faults);
        try_slices(&r, 3);
    }
}

int main(int argc, char **argv)
{
    unsigned long seed = 1, rounds = 10;
    if (argc > 1)
        seed = strtoul(argv[1], NULL, 10);
    if (argc > 2)
        rounds = strtoul(argv[2], NULL, 10);
    printf("compare_job: seed %lu, rounds %lu\n", seed, rounds);
    draw_seed(seed);
    job_check_open(seed);
    run_examples();
    for (uint32_t m = JOB_MIN_M; m <= JOB_MAX_M; m++)
        try_limits(m);
    for (uint32_t m = JOB_MIN_M; m <= JOB_MAX_M; m++)
        try_job_pairs(m, rounds);
    for (unsigned long round = 0; round < rounds; round++) {
        for (uint32_t m = JOB_MIN_M; m <= JOB_MAX_M; m++) {
            try_good(m);
            try_faults(m, round);
        }
        for (unsigned kind = 0; kind < 16 * JOB_KINDS; kind++) {
            struct job_record r;
            job_make(&r, (enum job_kind)(kind % JOB_KINDS));
            try_slices(&r, 2 + draw_below(4));
        }
    }
    if (!job_check_report()) {
        printf("compare_job: FAILED: some refusal, accepted call, transform or kind of pairs never came (seed %lu)\n",
               seed);
        return 1;
    }
    printf("compare_job: %lu calls agree, %lu of them with Arikan's transform (seed %lu)\n", job_check_count(),
           job_check_arikan_count(), seed);
    return 0;
}
