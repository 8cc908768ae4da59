/* reading.c: what is typed: lines, the words of a line, and the numbers and partitions that they are. */
#include <inttypes.h>
#include <stdio.h>
#include <stdlib.h>
#include <string.h>

#include "reading.h"
#include "refusals.h"

/* Reads a line without its newline. One that is too long or has a zero byte is read to its end, and is broken. */
enum input read_line(char line[LONGEST_LINE + 1])
{
    size_t length = 0;
    enum input input = LINE_READ;
    int character = getchar();
    if (character == EOF) {
        return INPUT_ENDED;
    }
    for (; character != '\n' && character != EOF; character = getchar()) {
        if (character == '\0' || length == LONGEST_LINE) {
            input = LINE_BROKEN;
        } else {
            line[length++] = (char)character;
        }
    }
    line[length] = '\0';
    return input;
}

/* What stands between words. */
static const char BLANKS[] = " \t\r";

/* Cuts a text behind its first word, which begins it, and gives what follows, from the next word on. */
static char *behind_word(char *text)
{
    char *rest = text + strcspn(text, BLANKS);
    if (*rest != '\0') {
        *rest++ = '\0';
    }
    return rest + strspn(rest, BLANKS);
}

/* The line is moved on to its first word; the blanks at the end of what follows are cut off. */
char *cut_first(char **line)
{
    *line += strspn(*line, BLANKS);
    char *rest = behind_word(*line);
    size_t length = strlen(rest);
    while (length > 0 && strchr(BLANKS, rest[length - 1]) != NULL) {
        length--;
    }
    rest[length] = '\0';
    return rest;
}

/* Cuts a text into words and gives their number; words beyond the room for them are counted together as one. */
size_t cut_words(char *text, char *words[MOST_WORDS])
{
    size_t count = 0;
    for (char *rest = text; *rest != '\0' && count < MOST_WORDS; rest = behind_word(rest)) {
        words[count++] = rest;
    }
    return count;
}

/* A number of decimal figures and nothing else; false where it is none, or has no room in 64 bits. */
bool read_number(const char *text, uint64_t *number)
{
    uint64_t value = 0;
    if (*text == '\0') {
        return false;
    }
    for (; *text != '\0'; text++) {
        if (*text < '0' || *text > '9') {
            return false;
        }
        uint64_t figure = (uint64_t)(*text - '0');
        if (value > (UINT64_MAX - figure) / 10) {
            return false;
        }
        value = 10 * value + figure;
    }
    *number = value;
    return true;
}

/* A word of one to eight hexadecimal figures after 0x; false where it is none. */
static bool read_word(const char *text, uint32_t *word)
{
    size_t figures = strspn(text + 2, "0123456789abcdefABCDEF");
    if (figures == 0 || figures > 8 || text[2 + figures] != '\0') {
        return false;
    }
    *word = (uint32_t)strtoul(text + 2, NULL, 16);
    return true;
}

/* Numbers from 0 to 255 with commas between them, to the parts; false where there is anything else. There is room: a
 * part has a character of the line, at least. */
static bool read_parts(char *text, uint8_t parts[LONGEST_LINE], size_t *count)
{
    *count = 0;
    for (char *rest = text; rest != NULL;) {
        char *comma = strchr(rest, ',');
        uint64_t part = 0;
        if (comma != NULL) {
            *comma = '\0';
        }
        if (!read_number(rest, &part) || part > UINT8_MAX) {
            return false;
        }
        parts[(*count)++] = (uint8_t)part;
        rest = comma == NULL ? NULL : comma + 1;
    }
    return true;
}

/* Reads a partition, as parts or as a word, and packs parts by the call given. Where it is refused, it says so. */
static bool read_partition(char *text, struct zembrusha_number (*pack)(const uint8_t *, size_t), uint32_t *word)
{
    if (strncmp(text, "0x", 2) == 0 || strncmp(text, "0X", 2) == 0) {
        bool read = read_word(text, word);
        if (!read) {
            refuse_input("a word is 0x and one to eight hexadecimal figures");
        }
        return read;
    }
    uint8_t parts[LONGEST_LINE];
    size_t count = 0;
    if (!read_parts(text, parts, &count)) {
        refuse_input("a partition is parts, as 3,2, each at most 255, or a word, as 0x2C000000");
        return false;
    }
    struct zembrusha_number packed = pack(parts, count);
    if (packed.refused != 0) {
        refuse(packed.refused);
        return false;
    }
    *word = (uint32_t)packed.number;
    return true;
}

/* The word is handed on as it came: the library drops the ones itself. The word of parts has none. */
bool read_shape(char *text, uint32_t *shape)
{
    if (!read_partition(text, zembrusha_shape_word, shape)) {
        return false;
    }
    struct zembrusha_good good = zembrusha_good_shape(*shape);
    if (good.dropped != 0) {
        printf("dropped %" PRIu32 " %s from the front of 0x%08" PRIX32 ", which leaves 0x%08" PRIX32 "\n",
               good.dropped, good.dropped == 1 ? "one" : "ones", *shape, good.word);
    }
    return true;
}

bool read_class(char *text, uint32_t *class)
{
    return read_partition(text, zembrusha_class_word, class);
}
