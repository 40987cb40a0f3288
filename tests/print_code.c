#include "print_code.h"

#include "reference_codec.h"

#include <stdio.h>

void print_code(const uint8_t *map, size_t map_len, const struct pairs *pairs)
{
    printf("  map ");
    for (size_t i = 0; i < map_len && i < 128; i++)
        printf("%02x", map[i]);
    printf("\n  pairs");
    for (size_t j = 0; j < pairs_count(pairs) && j < 260; j++)
        printf(" %zu-%zu", reference_pair_at(pairs->bytes, j).f, reference_pair_at(pairs->bytes, j).e);
    printf("\n");
}
