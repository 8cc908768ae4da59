/* partitions.h: partitions as parts, out of words, as text, and one after another. */
#ifndef PARTITIONS_H
#define PARTITIONS_H

#include <stdbool.h>
#include <stddef.h>
#include <stdint.h>

#include "zembrusha.h"

/* A partition, longest part first. */
struct partition {
    uint8_t parts[ZEMBRUSHA_DEGREE_LIMIT];
    size_t count;
};

/* A partition as text, in parentheses: room for sixteen parts of three figures, and a comma after each. */
struct shown {
    char text[4 * ZEMBRUSHA_DEGREE_LIMIT + 2];
};

/* The parts of a class, its cycles. */
struct partition class_partition(uint32_t class);

/* A partition as text. */
struct shown partition_text(const struct partition *partition);

/* The rows of a shape as text. */
struct shown shape_text(uint32_t shape);

/* The cycles of a class as text. */
struct shown class_text(uint32_t class);

/* The first partition of a degree of at most 16: one part, or none at degree 0. */
struct partition first_partition(uint64_t degree);

/* The next partition of the same degree in decreasing lexicographic order; false after the last, which is all ones. */
bool next_partition(struct partition *partition);

#endif
