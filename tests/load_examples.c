#include "load_examples.h"

#include "load_calls.h"
#include "load_check.h"
#include "load_tally.h"
#include "reference_load.h"

#include <stdio.h>
#include <stdlib.h>
#include <string.h>

static const struct example {
    uint32_t state, frame;
    uint8_t arikan, map;
    const char *pairs, *payload; /* a byte for each digit */
    size_t len;
    const char *record;
    uint32_t next;
} examples[] = {
    {7, 0, 0, 0x03, "", "11", 11, "\x00\x02\x03\xe0\xff\x0e\x00\x1a\x00\xd8\xff", 2098155156},
    {7, 0, 1, 0x03, "", "11", 11, "\x10\x02\x03\x08\x00\xe6\xff\x1a\x00\xd8\xff", 2098155156},
    {1, 7, 0, 0x0a, "30003020", "11", 25,
     "\x0c\x02\x07\x00\x00\x00\x0a\x02\x00\x03\x00\x00\x00\x03\x00\x02\x00\xf1\xff\xf0\xff\xea\xff\x07\x00", 745495504},
    {5, 0, 0, 0x0f, "", "", 11, "\x00\x02\x0f\x22\x00\x08\x00\x0b\x00\x28\x00", 3580160835},
};

static void run_example(const struct example *e)
{
    struct load_call c;
    struct decoder_call *job = &c.job.job;
    load_call_good(&c, 2, 0);
    c.state = e->state;
    c.job.frame = e->frame;
    job->arikan = e->arikan;
    job->map[0] = e->map;
    job->pairs.len = strlen(e->pairs);
    for (size_t j = 0; j < job->pairs.len; j++)
        job->pairs.bytes[j] = (uint8_t)(e->pairs[j] - '0');
    c.job.record_len = e->len;
    c.payload_len = strlen(e->payload);
    int same = load_check(&c) == e->next && memcmp(load_record(), e->record, e->len) == 0;
    for (size_t j = 0; j < c.payload_len; j++)
        same &= load_payload()[j] == e->payload[j] - '0';
    if (!same)
        load_fail(&c, "an example differs");
    load_tally(&c);
}

/* A draw of the library is seen only in what it makes; here is one of the reference's by itself. */
void run_load_examples(void)
{
    if (reference_draw(1) != 270369 || reference_draw(2463534242u) != 723471715 ||
        reference_draw(UINT32_MAX) != 253983) {
        printf("compare_load: FAILED: the reference draws otherwise\n");
        exit(1);
    }
    for (size_t i = 0; i < sizeof examples / sizeof examples[0]; i++)
        run_example(&examples[i]);
}
