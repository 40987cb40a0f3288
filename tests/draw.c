#include "draw.h"

#include <string.h>

static uint64_t state;

void draw_seed(uint64_t seed)
{
    state = seed;
}

/* splitmix64: every seed, 0 too, gives a good sequence. */
uint64_t draw(void)
{
    state += 0x9e3779b97f4a7c15u;
    uint64_t z = state;
    z = (z ^ z >> 30) * 0xbf58476d1ce4e5b9u;
    z = (z ^ z >> 27) * 0x94d049bb133111ebu;
    return z ^ z >> 31;
}

size_t draw_below(size_t n)
{
    return (size_t)(draw() % n);
}

void draw_bytes(uint8_t *to, size_t len)
{
    while (len > 0) {
        uint64_t bits = draw();
        size_t part = len < sizeof bits ? len : sizeof bits;
        memcpy(to, &bits, part);
        to += part;
        len -= part;
    }
}

/* Bytes of which only the lowest bit, only another one or every bit is set. */
uint8_t draw_flag(int yes)
{
    const uint8_t bytes[6] = {1, 1, 2, 128, 255, (uint8_t)(1 + draw_below(255))};
    return yes ? bytes[draw_below(6)] : 0;
}
