#include "reference_quantise.h"

#include <float.h>
#include <math.h>
#include <string.h>

_Static_assert(sizeof(float) == 4 && FLT_RADIX == 2 && FLT_MANT_DIG == 24 && FLT_MAX_EXP == 128 &&
                   DBL_MANT_DIG == 53 && DBL_MAX_EXP == 1024,
               "the machine's floats are those of the rules, and a double holds 64 times any of them");

/* The product is exact; nearbyint takes halves to the even whole number. */
int16_t reference_soft_value(uint32_t bits)
{
    float part;
    memcpy(&part, &bits, sizeof part);
    if (isnan(part))
        return 0;
    double nearest = nearbyint(64.0 * (double)part);
    return (int16_t)(nearest > REFERENCE_MOST ? REFERENCE_MOST : nearest < -REFERENCE_MOST ? -REFERENCE_MOST : nearest);
}

/* Low byte first. */
static uint32_t number_at(const uint8_t *bytes)
{
    uint32_t number = 0;
    for (size_t i = 4; i > 0; i--)
        number = 256 * number + bytes[i - 1];
    return number;
}

uint32_t reference_quantise(uint32_t m, const uint8_t *samples, size_t samples_len,
                            int16_t *soft, size_t soft_len)
{
    if (m < 2 || m > 10)
        return 1;
    size_t n = (size_t)1 << m;
    if (samples_len != 4 * n)
        return 6;
    if (soft_len < n)
        return 10;
    memset(soft, 0, soft_len * sizeof *soft);
    for (size_t j = 0; j < n / 2; j++) {
        const uint8_t *real = samples + 8 * j, *imaginary = real + 4;
        soft[2 * j] = reference_soft_value(number_at(real));
        soft[2 * j + 1] = reference_soft_value(number_at(imaginary));
    }
    return 0;
}
