/* Runs a program once: standard input given through a pipe, standard output taken. */
#ifndef RUN_PROGRAM_H
#define RUN_PROGRAM_H

#include <stddef.h>
#include <stdint.h>

struct run {
    int status;   /* the exit status, or 256 and the number of the signal that ended it */
    size_t len;   /* of what it wrote; one more than there was room for if it wrote more */
    size_t taken; /* how many bytes of the input it has read */
    int late;     /* 1 if it let a piece wait too long; then the rest came without waits */
};

/* The bytes of the input up to end. What is behind them comes only after the program has taken
 * these and has written so many bytes in all as are due; if it has ended, nothing more comes. */
struct piece {
    size_t end, due;
};

/* The input, which may be longer than what a pipe holds, comes in so many pieces; what is behind
 * the last one comes at once, and then the input ends. Ends the calling program if it cannot run
 * the other one. */
struct run run_in_pieces(const char *path, const uint8_t *input, size_t len, const struct piece *pieces, size_t count,
                         char *out, size_t room);

/* The first bytes of the input are a piece by themselves, so that the program meets a read shorter
 * than it asked for. All goes at once if first is 0. */
struct run run_program(const char *path, const uint8_t *input, size_t len, size_t first, char *out, size_t room);

#endif
