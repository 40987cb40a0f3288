/* What was written, read back and written again. */
#ifndef WRITER_BACK_H
#define WRITER_BACK_H

#include "writer_calls.h"

/* In another form of a record a field stands with the value that absence means, or -2,048 for
 * -2,047. */
enum { FORM_LIST_SIZE, FORM_STOP, FORM_FRAME, FORM_PAIRS, FORM_FULL_SCALE, FORMS };

/* Of a served call, and of the record that it has written: both readers, the library's and the
 * reference's, give back every field, into outputs that were dirty; what was read gives the same
 * bytes again; and so it is with another form of the record, which is not shorter and from which
 * the short one is written. Ends the program if anything is not so. */
void writer_back(const struct writer_call *c, const uint8_t *record);

/* How often another form had each of the FORMS. */
const unsigned long *writer_forms(void);

#endif
