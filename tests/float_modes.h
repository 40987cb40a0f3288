/*
 * Float modes that a host can run in, and of which a call of the quantiser is independent: each
 * rounding, and each of them with subnormals taken and given as 0. None of them traps.
 */
#ifndef FLOAT_MODES_H
#define FLOAT_MODES_H

#include <stddef.h>
#include <stdint.h>

/* The mode that a program starts in; the modes from 1 to the number that this machine has. */
enum { USUAL_MODE };
size_t float_modes(void);

const char *float_mode_name(size_t mode);

/* caldurrex_quantise in a mode. Before and after it the thread is in the usual one. */
uint32_t quantise_in_mode(size_t mode, uint32_t m, const uint8_t *samples, size_t samples_len, int16_t *soft,
                          size_t soft_len);

#endif
