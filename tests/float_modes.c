#include "float_modes.h"

#include "caldurrex.h"

#if defined(__SSE2__)
#include <xmmintrin.h>

/* Bits of the control register: subnormals read as 0, and given as 0; no operation traps; roundings
 * other than to the nearest. */
enum { READ_AS_0 = 0x0040, GIVE_AS_0 = 0x8000, FLUSH = READ_AS_0 | GIVE_AS_0, NO_TRAPS = 0x1f80 };
enum { DOWN = 0x2000, UP = 0x4000, TOWARD_0 = 0x6000 };

static const struct {
    const char *name;
    unsigned control;
} modes[] = {
    {"usual", NO_TRAPS},
    {"no subnormals, to the nearest", NO_TRAPS | FLUSH},
    {"no subnormals, down", NO_TRAPS | FLUSH | DOWN},
    {"no subnormals, up", NO_TRAPS | FLUSH | UP},
    {"no subnormals, toward 0", NO_TRAPS | FLUSH | TOWARD_0},
    {"down", NO_TRAPS | DOWN},
    {"up", NO_TRAPS | UP},
    {"toward 0", NO_TRAPS | TOWARD_0},
};

size_t float_modes(void)
{
    return sizeof modes / sizeof modes[0] - 1;
}

const char *float_mode_name(size_t mode)
{
    return modes[mode].name;
}

uint32_t quantise_in_mode(size_t mode, uint32_t m, const uint8_t *samples, size_t samples_len, int16_t *soft,
                          size_t soft_len)
{
    unsigned before = _mm_getcsr();
    if (mode != USUAL_MODE)
        _mm_setcsr(modes[mode].control);
    uint32_t answer = caldurrex_quantise(m, samples, samples_len, soft, soft_len);
    _mm_setcsr(before);
    return answer;
}

#else

size_t float_modes(void)
{
    return 0;
}

const char *float_mode_name(size_t mode)
{
    (void)mode;
    return "usual";
}

uint32_t quantise_in_mode(size_t mode, uint32_t m, const uint8_t *samples, size_t samples_len, int16_t *soft,
                          size_t soft_len)
{
    (void)mode;
    return caldurrex_quantise(m, samples, samples_len, soft, soft_len);
}

#endif
