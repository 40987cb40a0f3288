/* Streams for the shift log on both sides of every limit, each of which is tried. */
#ifndef PAGE_LIMITS_H
#define PAGE_LIMITS_H

/* Good records: every m, row count and set of fields, numbers with more and more digits, and as
 * many and as long ones as there can be; and one byte more than those. */
void page_try_limits(void);

/* Every tail in every place, every byte in a head, records cut at every byte. */
void page_try_damage(void);

#endif
