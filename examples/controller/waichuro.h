/* The entry of the planner for the saw's controller. */
#ifndef WAICHURO_H
#define WAICHURO_H

#include <stddef.h>
#include <stdint.h>

/* What a run costs by the book: its time in tenths of a second, below 2 to the 32nd; or the number of a refusal times 2 to the
   32nd. The book's text is checked first, then that the run has no 17th stroke (19), and then the run as for any price. The two
   are bytes and their lengths: neither has to end in a zero, and neither may be a null pointer, also where its length is 0.
   docs/REFUSALS.md of the repository has the numbers. */
uint64_t waichuro_price(const uint8_t *book, size_t book_length, const uint8_t *run, size_t run_length);

#endif
