/* Random numbers that a seed makes repeatable. */
#ifndef DRAW_H
#define DRAW_H

#include <stddef.h>
#include <stdint.h>

void draw_seed(uint64_t seed);

/* 64 random bits. */
uint64_t draw(void);

/* A number below n; n is not 0. */
size_t draw_below(size_t n);

void draw_bytes(uint8_t *to, size_t len);

/* A yes or no as a call from C takes it: 0 for no, any other byte for yes. */
uint8_t draw_flag(int yes);

#endif
