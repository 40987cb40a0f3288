/*
 * The shift log's page for an input, written from the rules alone, to compare the program with.
 * It asks the reference's reader for operators what a record says or is refused with, and finds
 * by itself where a record ends.
 */
#ifndef REFERENCE_PAGE_H
#define REFERENCE_PAGE_H

#include <stddef.h>
#include <stdint.h>

/* A line for each record, one for a refused record, and the last one: 43 columns and a line feed
 * each. The page needs a byte more than its lines have while it is written. */
enum { PAGE_RECORDS = 1000, PAGE_LINES = PAGE_RECORDS + 2, PAGE_LINE = 44, PAGE_ROOM = PAGE_LINES * PAGE_LINE + 1 };

/* Writes the page and gives its length. For each of its lines but the last, needs has how many
 * bytes of the input decide it; one more than there are, if the end of the input does. */
size_t reference_page(const uint8_t *input, size_t len, char page[PAGE_ROOM], size_t needs[PAGE_LINES]);

#endif
