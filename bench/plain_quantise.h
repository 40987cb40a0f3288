/*
 * Soft values of complex samples in plain C, to measure the library against. It checks no
 * argument and writes nothing behind the n soft values. It takes the floats as they lie in
 * memory, so the host must keep its numbers low byte first.
 */
#ifndef PLAIN_QUANTISE_H
#define PLAIN_QUANTISE_H

#include <stddef.h>
#include <stdint.h>

/* Makes n soft values of 4n bytes. */
void plain_quantise(size_t n, const uint8_t *samples, int16_t *soft);

#endif
