#include "writer_back.h"

#include "draw.h"
#include "reading.h"
#include "reference_writer.h"
#include "writer_check.h"

#include <string.h>

static unsigned long forms[FORMS];

const unsigned long *writer_forms(void)
{
    return forms;
}

/* ---- writing again */

/* What was read is written to an output that is longer by so many bytes. */
static void write_again(const struct reading *r, const uint8_t *record, size_t len, size_t beyond)
{
    static struct writer_call again;
    struct decoder_call *job = &again.job;
    job->m = again.sizes_of = r->job.m;
    job->arikan = (uint8_t)r->job.arikan;
    job->list_size = r->job.list_size;
    job->stop = r->job.stop;
    job->map_len = job_map_len(r->job.m);
    job->soft_len = (size_t)1 << r->job.m;
    job->pairs.len = 4 * (size_t)r->job.pairs;
    memcpy(job->map, r->map, sizeof r->map);
    memcpy(job->pairs.bytes, r->pairs, sizeof r->pairs);
    memcpy(job->soft, r->soft, sizeof r->soft);
    again.frame = r->job.frame;
    again.record_len = len + beyond;
    writer_check(&again);
    if (memcmp(writer_output(), record, len) != 0)
        writer_fail(&again, "what was read is written to other bytes");
}

/* ---- another form of the record */

/* With some of the fields that could be absent, and with -2,048 for some of -2,047. */
static void make_form(const struct reading *r, unsigned fields, struct job_record *form)
{
    unsigned more = (unsigned)draw_below(JOB_FIELD_SETS) & ~fields;
    int full_scale = 0;
    *form = (struct job_record){.fields = fields | more, .arikan = r->job.arikan, .m = r->job.m,
                                .list_size = r->job.list_size, .stop = r->job.stop, .frame = r->job.frame,
                                .count = r->job.pairs};
    memcpy(form->map, r->map, sizeof r->map);
    memcpy(form->pairs.bytes, r->pairs, sizeof r->pairs);
    memcpy(form->soft, r->soft, sizeof r->soft);
    form->pairs.len = 4 * (size_t)r->job.pairs;
    for (size_t i = 0; i < (size_t)1 << r->job.m; i++)
        if (r->soft[i] == -2047 && draw_below(2)) {
            form->soft[i] = -2048;
            full_scale = 1;
        }
    job_pack(form);
    for (size_t field = 0; field < FORM_FULL_SCALE; field++)
        forms[field] += more >> field & 1;
    forms[FORM_FULL_SCALE] += (unsigned long)full_scale;
}

void writer_back(const struct writer_call *c, const uint8_t *record)
{
    static struct reading want, by_library, by_reference;
    static struct job_record form;
    uint8_t kept[REFERENCE_RECORD_BYTES];
    size_t len = writer_need(c);
    memcpy(kept, record, len);
    read_from_call(c, &want);
    read_by_library(kept, len, &by_library);
    read_by_reference(kept, len, &by_reference);
    if (!same_reading(&by_library, &want) || !same_reading(&by_reference, &want))
        writer_fail(c, "the record is not read back to what was written");
    write_again(&by_library, kept, len, 0);
    make_form(&want, writer_fields(c), &form);
    if (form.len < len)
        writer_fail(c, "another record with the same fields is shorter");
    read_by_library(form.bytes, form.len, &by_library);
    read_by_reference(form.bytes, form.len, &by_reference);
    if (!same_reading(&by_library, &want) || !same_reading(&by_reference, &want))
        writer_fail(c, "another form of the record is read otherwise");
    write_again(&by_library, kept, len, draw_below(64));
}
