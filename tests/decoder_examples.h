/* The examples that the rules give for the decoder. */
#ifndef DECODER_EXAMPLES_H
#define DECODER_EXAMPLES_H

/* Checks each against the library and the paper decoder, and its outputs against what
 * the rules say. Ends the program if one differs. */
void decoder_examples(void);

#endif
