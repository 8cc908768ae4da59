/* partitions.c: partitions as parts, out of words, as text, and one after another. */
#include <stdio.h>

#include "partitions.h"

/* The parts of a shape, its rows. */
static struct partition shape_partition(uint32_t shape)
{
    struct partition rows = {{0}, 0};
    rows.count = (size_t)zembrusha_shape_parts(shape, rows.parts, sizeof rows.parts).number;
    return rows;
}

/* The parts of a class, its cycles. */
struct partition class_partition(uint32_t class)
{
    struct partition cycles = {{0}, 0};
    cycles.count = (size_t)zembrusha_class_parts(class, cycles.parts, sizeof cycles.parts).number;
    return cycles;
}

/* The parts with commas between them, in parentheses. */
struct shown partition_text(const struct partition *partition)
{
    struct shown shown = {"("};
    size_t length = 1;
    for (size_t i = 0; i < partition->count; i++) {
        const char *comma = i == 0 ? "" : ",";
        length += (size_t)snprintf(shown.text + length, sizeof shown.text - length, "%s%u", comma, partition->parts[i]);
    }
    snprintf(shown.text + length, sizeof shown.text - length, ")");
    return shown;
}

/* The rows of a shape as text. */
struct shown shape_text(uint32_t shape)
{
    struct partition rows = shape_partition(shape);
    return partition_text(&rows);
}

/* The cycles of a class as text. */
struct shown class_text(uint32_t class)
{
    struct partition cycles = class_partition(class);
    return partition_text(&cycles);
}

/* The first partition of a degree: one part, or none at degree 0. */
struct partition first_partition(uint64_t degree)
{
    struct partition partition = {{(uint8_t)degree}, degree == 0 ? 0 : 1};
    return partition;
}

/* The ones at the end, and one more from the part before them, are laid out again in parts no longer than that part. */
bool next_partition(struct partition *partition)
{
    uint8_t left = 1;
    while (partition->count > 0 && partition->parts[partition->count - 1] == 1) {
        partition->count--;
        left++;
    }
    if (partition->count == 0) {
        return false;
    }
    uint8_t most = --partition->parts[partition->count - 1];
    while (left > 0) {
        uint8_t part = left < most ? left : most;
        partition->parts[partition->count++] = part;
        left -= part;
    }
    return true;
}
