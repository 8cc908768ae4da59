/* refusals.c: the refusals in words. */
#include <inttypes.h>
#include <stdbool.h>
#include <stdio.h>

#include "refusals.h"

/* The words of each refusal number. */
static const char *const REFUSALS[] = {
    [ZEMBRUSHA_GIVEN] = "not refused",
    [ZEMBRUSHA_BAD_SHAPE] = "bit 31 of the shape word is set",
    [ZEMBRUSHA_SHAPE_TOO_LARGE] = "the shape's degree is above 16",
    [ZEMBRUSHA_BAD_CLASS] = "no partition: a part is 0 or above the one before it, or bit 31 of the class word is set",
    [ZEMBRUSHA_CLASS_TOO_LARGE] = "the class's degree is above 16",
    [ZEMBRUSHA_DEGREES_DIFFER] = "the degrees of shape and class differ",
    [ZEMBRUSHA_PAGE_TOO_LONG] = "the page is longer than 4096 words",
    [ZEMBRUSHA_NOT_SOUND] = "slip and page are not sound",
    [ZEMBRUSHA_NO_SUCH_LINE] = "no such line",
    [ZEMBRUSHA_NO_SUCH_CYCLE] = "the line's class has no such cycle",
    [ZEMBRUSHA_PAGE_FULL] = "the page has no room for so many lines",
    [ZEMBRUSHA_NO_SUCH_RANK] = "the rank is not in the list",
    [ZEMBRUSHA_DEGREE_TOO_LARGE] = "the table's degree is above 16",
    [ZEMBRUSHA_BAD_INPUT] = "the input is not of its form",
    [ZEMBRUSHA_COLUMN_TOO_SHORT] = "the column is too short",
    [ZEMBRUSHA_NO_SUCH_KIND] = "no such kind of watch",
    [ZEMBRUSHA_BAD_TEXT] = "the text is not of its form",
    [ZEMBRUSHA_BUFFER_TOO_SHORT] = "the text buffer is too short",
    [ZEMBRUSHA_STRIP_TOO_SHORT] = "the strip is too short",
    [ZEMBRUSHA_NOT_THAT_PREVIEW] = "the strip is not that preview",
    [ZEMBRUSHA_BAD_LENGTHS] = "the lists have unequal lengths, or more than 4096 words",
    [ZEMBRUSHA_BAD_COEFFICIENTS] = "the coefficient column is not as long as the page",
};

/* What each line of a session's text has to be, the first in the gathered mode only; the waiting lines follow. */
static const char *const TEXT_LINES[] = {
    "mode=gathered",
    "degree= and the shape's degree, without needless zeros",
    "shape= and a partition of at most 16, as shape=3,2",
    "class= and a partition of at most 16, as class=3,2",
    "steps= and a number below 2^63, without needless zeros",
    "settled= and a number of 64 bits, without needless zeros and with a minus only where it is negative",
    "lines= and the number of all lines after it, without needless zeros",
};

enum { TEXT_LINE_COUNT = sizeof TEXT_LINES / sizeof TEXT_LINES[0] };

/* And what each waiting line has to be, by the mode. */
static const char *const WAITING_LINES[] = {
    [ZEMBRUSHA_PLAIN] = "line=, sign, and shape and class, partitions of at most 16, as line=-;1,1;2",
    [ZEMBRUSHA_GATHERED] = "line=, coefficient, a number of 64 bits as settled is, and shape and class, partitions of "
                           "at most 16, as line=-3;1,1;2",
};

/* The number of the refusal, and its words. */
static void say(uint32_t refused, const char *words)
{
    printf("refused %" PRIu32 ": %s\n", refused, words);
}

void refuse(uint32_t refused)
{
    say(refused, REFUSALS[refused]);
}

/* A gathered session has coefficients besides, which may not be sound either. */
void refuse_session(enum zembrusha_mode mode, uint32_t refused)
{
    bool coefficients = mode == ZEMBRUSHA_GATHERED && refused == ZEMBRUSHA_NOT_SOUND;
    say(refused, coefficients ? "slip, page and coefficients are not sound" : REFUSALS[refused]);
}

/* Refuses input that is not of its form, and says what form it should have. */
void refuse_input(const char *form)
{
    printf("refused %d: %s (%s)\n", ZEMBRUSHA_BAD_INPUT, REFUSALS[ZEMBRUSHA_BAD_INPUT], form);
}

/* Refuses a session's text for its line of this number, from 1, and says what that line should be in this mode. */
void refuse_text(enum zembrusha_mode mode, uint64_t line)
{
    uint64_t at = mode == ZEMBRUSHA_GATHERED ? line - 1 : line;
    const char *form = at < TEXT_LINE_COUNT ? TEXT_LINES[at] : WAITING_LINES[mode];
    printf("refused %d: %s: line %" PRIu64 " is not %s, and a newline\n", ZEMBRUSHA_BAD_TEXT,
           REFUSALS[ZEMBRUSHA_BAD_TEXT], line, form);
}
