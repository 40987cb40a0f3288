/* Examples of the call that lists words, whose outputs are written here. */
#ifndef WORDS_EXAMPLES_H
#define WORDS_EXAMPLES_H

/* Ends the program if one is answered wrongly. */
void words_examples(void);

#endif
