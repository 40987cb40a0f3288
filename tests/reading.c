#include "reading.h"

#include "caldurrex.h"
#include "draw.h"

#include <string.h>

static void soil(struct reading *r)
{
    draw_bytes(r->map, sizeof r->map);
    draw_bytes(r->pairs, sizeof r->pairs);
    draw_bytes((uint8_t *)r->soft, sizeof r->soft);
}

void read_by_library(const uint8_t *record, size_t len, struct reading *r)
{
    soil(r);
    struct caldurrex_job is = caldurrex_read_job(record, len, r->map, sizeof r->map, r->soft, DECODER_MAX_N, r->pairs,
                                                 sizeof r->pairs);
    r->job = (struct reference_job){is.refusal, is.m, is.list_size, is.stop, is.frame, is.pairs, is.arikan};
}

void read_by_reference(const uint8_t *record, size_t len, struct reading *r)
{
    soil(r);
    r->job = reference_read_job(record, len, r->map, sizeof r->map, r->soft, DECODER_MAX_N, r->pairs, sizeof r->pairs);
}

void read_from_call(const struct writer_call *c, struct reading *r)
{
    const struct decoder_call *job = &c->job;
    memset(r, 0, sizeof *r);
    r->job = (struct reference_job){0, job->m, job->list_size, job->stop, c->frame,
                                    (uint32_t)pairs_count(&job->pairs), job->arikan != 0};
    memcpy(r->map, job->map, job->map_len);
    memcpy(r->pairs, job->pairs.bytes, job->pairs.len);
    for (size_t i = 0; i < job->soft_len; i++)
        r->soft[i] = job->soft[i] == -2048 ? -2047 : job->soft[i];
}

int same_reading(const struct reading *x, const struct reading *y)
{
    return memcmp(&x->job, &y->job, sizeof x->job) == 0 && memcmp(x->map, y->map, sizeof x->map) == 0 &&
           memcmp(x->pairs, y->pairs, sizeof x->pairs) == 0 && memcmp(x->soft, y->soft, sizeof x->soft) == 0;
}
