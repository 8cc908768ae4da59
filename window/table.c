/* table.c: single characters, and the character table, laid out in columns. */
#include <inttypes.h>
#include <stdio.h>
#include <string.h>

#include "partitions.h"
#include "refusals.h"
#include "table.h"
#include "zembrusha.h"

/* The refusal is asked for first: a refused character is 0, as many others are. */
void show_character(uint32_t shape, uint32_t class)
{
    uint32_t refused = zembrusha_character_refusal(shape, class);
    if (refused != 0) {
        refuse(refused);
        return;
    }
    printf("the character of %s on %s is %" PRId64 "\n", shape_text(shape).text, class_text(class).text,
           zembrusha_character(shape, class));
}

/* How a table is laid out: the width of the classes, of their sizes and periods, and of the column of each shape. */
struct layout {
    int classes;
    int sizes;
    int periods;
    int shapes[ZEMBRUSHA_LONGEST_COLUMN];
};

/* The width of a number or a heading, whichever is wider. */
static int width(int64_t number, const char *heading)
{
    int figures = snprintf(NULL, 0, "%" PRId64, number);
    int letters = (int)strlen(heading);
    return figures > letters ? figures : letters;
}

/* The layout for a degree. No class is larger than n!, no period has more figures than its heading has letters, and no
 * character is larger in size than the shape's character degree, which stands in the column of the class (1^n). */
static struct layout table_layout(uint64_t degree)
{
    struct layout layout;
    int64_t degrees[ZEMBRUSHA_LONGEST_COLUMN];
    struct partition ones = {{0}, (size_t)degree};
    int64_t factorial = 1;
    for (size_t i = 0; i < ones.count; i++) {
        ones.parts[i] = 1;
        factorial *= (int64_t)i + 1;
    }
    zembrusha_column((uint32_t)zembrusha_class_word(ones.parts, ones.count).number, degrees, ZEMBRUSHA_LONGEST_COLUMN);
    int letters = (int)strlen(partition_text(&ones).text);
    int heading = (int)strlen("class");
    layout.classes = letters > heading ? letters : heading;
    layout.sizes = 2 + width(factorial, "size");
    layout.periods = 2 + (int)strlen("period");
    struct partition rows = first_partition(degree);
    size_t rank = 0;
    do {
        layout.shapes[rank] = 2 + width(-degrees[rank], partition_text(&rows).text);
        rank++;
    } while (next_partition(&rows));
    return layout;
}

/* The shapes over their columns. */
static void show_heading(uint64_t degree, const struct layout *layout)
{
    struct partition rows = first_partition(degree);
    size_t rank = 0;
    printf("%-*s%*s%*s", layout->classes, "class", layout->sizes, "size", layout->periods, "period");
    do {
        printf("%*s", layout->shapes[rank++], partition_text(&rows).text);
    } while (next_partition(&rows));
    printf("\n");
}

/* The character table of a degree: a row to a class, with its size and period, and a column to a shape, both in
 * decreasing lexicographic order. */
void show_table(uint64_t degree)
{
    struct layout layout = table_layout(degree);
    int64_t values[ZEMBRUSHA_LONGEST_COLUMN];
    struct partition cycles = first_partition(degree);
    show_heading(degree, &layout);
    do {
        uint32_t class = (uint32_t)zembrusha_class_word(cycles.parts, cycles.count).number;
        uint64_t count = zembrusha_column(class, values, ZEMBRUSHA_LONGEST_COLUMN).number;
        printf("%-*s", layout.classes, partition_text(&cycles).text);
        printf("%*" PRId64, layout.sizes, zembrusha_class_size(class));
        printf("%*" PRId64, layout.periods, zembrusha_class_period(class));
        for (size_t rank = 0; rank < count; rank++) {
            printf("%*" PRId64, layout.shapes[rank], values[rank]);
        }
        printf("\n");
    } while (next_partition(&cycles));
}
