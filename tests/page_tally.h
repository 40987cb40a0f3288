/* Counts what the runs of the shift log have reached. */
#ifndef PAGE_TALLY_H
#define PAGE_TALLY_H

#include "page_streams.h"

/* How the input comes to the program: as much at once as a pipe holds; each byte, or each record,
 * only after the one before was taken and the lines that it decides were printed; in pieces of any
 * length, with the same waits. */
enum feed { AT_ONCE, BYTE_BY_BYTE, RECORD_BY_RECORD, IN_DRAWN_PIECES, FEEDS };
extern const char *const page_feed_name[FEEDS];

/* Counts a stream for which this page, of so many lines before the last one, was printed. */
void page_tally(const struct page_stream *s, const char *page, size_t lines);

/* Counts a run in which so many lines came while the program could wait for more input, and so
 * many bytes of the input were not read. */
void page_tally_run(const struct page_stream *s, enum feed feed, size_t awaited, size_t unread);

/* Counts a run with other packed bits. */
void page_tally_changed(void);

/* Prints the counts. Gives 0 if something was met too seldom: a tail at the front, behind some
 * records, behind 999 and behind 1,000; two faults in one tail; a head that is refused for less
 * than its three bytes would be; a record of some m, row count and fields; numbers at which
 * something ends; a long stream; a way to feed the program; bytes left unread behind a refusal. */
int page_tally_report(void);

#endif
