/* The code of a call that failed, for messages. */
#ifndef PRINT_CODE_H
#define PRINT_CODE_H

#include "pairs.h"

/* A line with the map and one with the pairs. */
void print_code(const uint8_t *map, size_t map_len, const struct pairs *pairs);

#endif
