/* reading.h: what is typed: lines, the words of a line, and the numbers and partitions that they are. */
#ifndef READING_H
#define READING_H

#include <stdbool.h>
#include <stddef.h>
#include <stdint.h>

#include "zembrusha.h"

/* The most characters of a line of input, and the most words after the first that are told apart. */
enum { LONGEST_LINE = 1000, MOST_WORDS = 4 };

/* What came of reading a line. */
enum input { LINE_READ, LINE_BROKEN, INPUT_ENDED };

/* Reads a line without its newline. One that is too long or has a zero byte is read to its end, and is broken. */
enum input read_line(char line[LONGEST_LINE + 1]);

/* Cuts a line behind its first word. Gives what follows, which may be empty, without the blanks at its two ends. */
char *cut_first(char **line);

/* Cuts a text into words and gives their number; words beyond the room for them are counted together as one. */
size_t cut_words(char *text, char *words[MOST_WORDS]);

/* A number of decimal figures and nothing else; false where it is none, or has no room in 64 bits. */
bool read_number(const char *text, uint64_t *number);

/* Reads a shape of a line, as parts or as a word. Where it is refused, it says so, and where the library drops ones in
 * front of a word, how many. */
bool read_shape(char *text, uint32_t *shape);

/* Reads a class of a line, as parts or as a word. Where it is refused, it says so. */
bool read_class(char *text, uint32_t *class);

#endif
