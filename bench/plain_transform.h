/* The transform in place, for the plain C programs that the library is measured against. */
#ifndef PLAIN_TRANSFORM_H
#define PLAIN_TRANSFORM_H

#include <stdint.h>

/* c, n bits, becomes its transform. */
static inline void transform(uint8_t *c, int n, int arikan)
{
    for (int stride = 1; stride < n; stride *= 2)
        for (int first = 0; first < stride; first++)
            for (int i = 0; i < n / stride; i += 2) {
                uint8_t *u = c + first + i * stride, next = !arikan && i + 2 < n / stride ? u[2 * stride] : 0;
                u[0] ^= u[stride] ^ next;
                u[stride] ^= next;
            }
}

#endif
