/*
 * A host that reads a job record and decodes what it asks for.
 *
 * Build, from the repository's top, after `make target/staticlib/libcaldurrex.a`:
 *
 *   cc -std=c11 -Iinclude examples/read_record.c target/staticlib/libcaldurrex.a
 */
#include "caldurrex.h"

#include <stdio.h>

/* The largest code and list that this host has decoder memory for. */
enum { N = 64, LIST = 4 };

/* The reader's outputs: enough for every record, also for one that is not decoded. */
static uint8_t map[128], pairs[1024];
static int16_t soft[1024];

/* Lent to the decoder. */
static uint32_t numbers[CALDURREX_NUMBERS(N, LIST)];
static uint8_t bytes[CALDURREX_BYTES(N, LIST)];
static uint8_t inputs[CALDURREX_ROWS(N, LIST)], words[CALDURREX_ROWS(N, LIST)];
static int32_t scores[LIST];

static const uint8_t sample[] = {
    0x01,                                           /* of the fields only the list size is present */
    0x02,                                           /* m: n = 4 */
    0x02,                                           /* list size */
    0x03,                                           /* positions 0 and 1 are frozen */
    0x05, 0x00, 0xfd, 0xff, 0x02, 0x00, 0x07, 0x00, /* soft values 5 -3 2 7 */
};

static const uint8_t paired[] = {
    0x09,                                           /* the list size and the pairs are present */
    0x02,                                           /* m: n = 4 */
    0x02,                                           /* list size */
    0x0d,                                           /* positions 0, 2 and 3 are frozen */
    0x03, 0x00,                                     /* three pairs */
    0x02, 0x00, 0x01, 0x00,                         /* the bit at 2 is that at 1 */
    0x03, 0x00, 0x01, 0x00, 0x03, 0x00, 0x02, 0x00, /* the bit at 3 is the sum of those at 1 and 2 */
    0x05, 0x00, 0xfd, 0xff, 0x02, 0x00, 0x07, 0x00, /* soft values 5 -3 2 7 */
};

static const uint8_t plain[] = {
    0x11,                                           /* the list size is present, and Arikan's transform is asked for */
    0x02, 0x02, 0x03,                               /* the rest as in the sample */
    0x05, 0x00, 0xfd, 0xff, 0x02, 0x00, 0x07, 0x00,
};

static void print_bits(const char *name, const uint8_t *bits, size_t n)
{
    printf(" %s ", name);
    for (size_t i = 0; i < n; i++)
        printf("%u", bits[i]);
}

/* Decodes the record that was read last, and prints the rows, best first; the refusal.
 * The reader has set all of its three outputs; the decoder takes as much of them as the
 * code needs, four bytes for each pair. The transform, too, is the one that the record asks
 * for. */
static uint32_t decode(const struct caldurrex_job *job)
{
    size_t n = (size_t)1 << job->m;
    struct caldurrex_decoded answer =
        caldurrex_decode(job->m, (uint8_t)job->arikan, map, (n + 7) / 8, pairs, 4 * (size_t)job->pairs,
                         job->list_size, job->stop, soft, n,
                         numbers, sizeof numbers / sizeof numbers[0], bytes, sizeof bytes,
                         inputs, sizeof inputs, words, sizeof words, scores, LIST);
    for (uint32_t r = 0; r < answer.rows; r++) {
        printf("  row %u score %d", (unsigned)r, (int)scores[r]);
        print_bits("input", inputs + r * n, n);
        print_bits("word", words + r * n, n);
        printf("\n");
    }
    return answer.refusal;
}

/* Reads the first len bytes of a record, and decodes what was read; the refusal. */
static uint32_t show(const uint8_t *record, size_t len)
{
    struct caldurrex_job job = caldurrex_read_job(record, len, map, sizeof map, soft, sizeof soft / sizeof soft[0],
                                                  pairs, sizeof pairs);
    printf("record of %zu bytes", len);
    if (job.refusal != 0) {
        printf(" is refused with %u\n", (unsigned)job.refusal);
        return job.refusal;
    }
    printf(": m %u, list size %u, stop %u, frame %u, pairs %u, arikan %u\n", (unsigned)job.m, (unsigned)job.list_size,
           (unsigned)job.stop, (unsigned)job.frame, (unsigned)job.pairs, (unsigned)job.arikan);
    return decode(&job);
}

int main(void)
{
    if (show(sample, sizeof sample) != 0 || show(paired, sizeof paired) != 0 || show(plain, sizeof plain) != 0)
        return 1;
    /* A record must be exactly as long as its fields need. */
    return show(sample, sizeof sample - 1) == CALDURREX_BAD_RECORD_LENGTH ? 0 : 1;
}
