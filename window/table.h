/* table.h: single characters, and the character table. */
#ifndef TABLE_H
#define TABLE_H

#include <stdint.h>

/* Shows the character of a shape on a class. Where it is refused, it says so. */
void show_character(uint32_t shape, uint32_t class);

/* Shows the character table of a degree of at most 16: a row to a class, with its size and period, and a column to a
 * shape. */
void show_table(uint64_t degree);

#endif
