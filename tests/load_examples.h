/* Test loads whose records, payloads and next states are written out. */
#ifndef LOAD_EXAMPLES_H
#define LOAD_EXAMPLES_H

/* Compares both test loads, the library's and the reference's, with them. */
void run_load_examples(void);

#endif
