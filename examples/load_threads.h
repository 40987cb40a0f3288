/* The threads that serve the blocks of a round, each with tables of its own. */
#ifndef LOAD_THREADS_H
#define LOAD_THREADS_H

#include "load_round.h"

enum { MOST_THREADS = 64 };

struct load_threads;

/* Starts so many threads, which wait for a round. Their tables are dirty at first, and nobody but
 * the calls ever clears them. */
struct load_threads *threads_open(size_t count, const struct load_code *code);

/* Serves every block of a round; the seconds that it took. Meanwhile calls watch now and then,
 * with the number of blocks taken so far. */
double threads_serve(struct load_threads *t, struct load_round *r, void (*watch)(size_t taken));

/* Ends the program if the tables of a thread that has served a block are not all 0; no block was
 * refused. */
void threads_judge(const struct load_threads *t);

/* Ends the threads and gives back what they had. */
void threads_close(struct load_threads *t);

#endif
