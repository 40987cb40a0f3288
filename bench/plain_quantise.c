#include "plain_quantise.h"

#include <math.h>
#include <string.h>

enum { MOST = 2047 };

/* lrintf rounds to the nearest whole number, halves to the even one, in the usual float mode.
 * With -fno-math-errno it is one instruction. Without, it is a call into the C library for
 * each value, and a comparison with that would flatter the library. */
void plain_quantise(size_t n, const uint8_t *samples, int16_t *soft)
{
    for (size_t i = 0; i < n; i++) {
        float x;
        memcpy(&x, samples + sizeof x * i, sizeof x);
        if (isnan(x))
            x = 0;
        x *= 64.0f;
        x = x > -MOST ? x : -MOST;
        x = x < MOST ? x : MOST;
        soft[i] = (int16_t)lrintf(x);
    }
}
