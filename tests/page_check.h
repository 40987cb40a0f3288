/* Runs the shift log on streams and compares every byte that it prints with the page by the rules. */
#ifndef PAGE_CHECK_H
#define PAGE_CHECK_H

#include "page_streams.h"
#include "page_tally.h"

/* The program, and the seed that a failure is reported with. */
void page_check_open(const char *path, unsigned long seed);

/* Runs the program on a stream that is fed in this way, and often once more with other packed bits,
 * which stay in the stream. The page by the rules must end as the stream was made to end, and must
 * be the same with other packed bits. The program must print that page and end with status 0, must
 * have read no byte behind the one that decides the page, and must print what each piece decides
 * before the next one comes. Ends this program where anything differs. */
void page_try(struct page_stream *s, enum feed feed);

/* The same, fed in a way that is drawn; a long stream is not fed byte by byte. */
void page_try_drawn(struct page_stream *s);

/* Says what is wrong and ends this program. */
void page_fail(const struct page_stream *s, const char *what);

unsigned long page_streams_tried(void);
unsigned long page_runs(void);

#endif
