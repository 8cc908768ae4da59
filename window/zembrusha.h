/* zembrusha.h: characters of the symmetric group, step by step. The calls of libzembrusha.a.
 *
 * Partitions have degree 0 to 16. A shape word packs a partition as a shape, a class word packs it as a class of
 * permutations; docs/READING.md has the rules. A shape word may have ones in front, from bit 30 down: a call that takes
 * a shape word answers as for the good word, which has none. Slips, pages and lists hold good words only. Every call
 * takes every number: what it cannot answer it refuses, with one of the numbers below. A refused value, word or count
 * is 0, and a refused call writes nothing.
 *
 * A lent run is a pointer and then a length in elements. The pointer is good for that many elements and is not NULL,
 * even where the length is 0; nothing outside the run is read or written. Two runs lent to one call do not overlap. The
 * library keeps no state and allocates nothing, so calls on different runs may be made at the same time. */
#ifndef ZEMBRUSHA_H
#define ZEMBRUSHA_H

#include <stddef.h>
#include <stdint.h>

/* Why a call is refused; 0 is for none. Where several apply, a call gives the first in its own order. */
enum zembrusha_refusal {
    ZEMBRUSHA_GIVEN = 0,             /* not refused */
    ZEMBRUSHA_BAD_SHAPE = 1,         /* shape word: bit 31 set; in a list of shapes: 2^30 or more */
    ZEMBRUSHA_SHAPE_TOO_LARGE = 2,   /* shape degree above 16 */
    ZEMBRUSHA_BAD_CLASS = 3,         /* class word or old shape: bit 31 set, or a rise; part list: a 0 or a rise */
    ZEMBRUSHA_CLASS_TOO_LARGE = 4,   /* class degree, or that of an old shape, above 16 */
    ZEMBRUSHA_DEGREES_DIFFER = 5,    /* the degrees of shape and class differ */
    ZEMBRUSHA_PAGE_TOO_LONG = 6,     /* page longer than 4,096 words */
    ZEMBRUSHA_NOT_SOUND = 7,         /* slip, page and coefficients not sound, or a slip of the other mode */
    ZEMBRUSHA_NO_SUCH_LINE = 8,      /* no such line */
    ZEMBRUSHA_NO_SUCH_CYCLE = 9,     /* the line's class has no such cycle (0 included) */
    ZEMBRUSHA_PAGE_FULL = 10,        /* opening, commit or load would hold more lines than the page has words */
    ZEMBRUSHA_NO_SUCH_RANK = 11,     /* rank not in the list */
    ZEMBRUSHA_DEGREE_TOO_LARGE = 12, /* listing or table degree above 16 */
    ZEMBRUSHA_BAD_INPUT = 13,        /* program input not of its form */
    ZEMBRUSHA_COLUMN_TOO_SHORT = 14, /* column shorter than the list, or than the parts to be written */
    ZEMBRUSHA_NO_SUCH_KIND = 15,     /* watch kind not 1 to 5 */
    ZEMBRUSHA_BAD_TEXT = 16,         /* a text not of its form; zembrusha_load and zembrusha_gathered_load say where */
    ZEMBRUSHA_BUFFER_TOO_SHORT = 17, /* text buffer too short for the session's text */
    ZEMBRUSHA_STRIP_TOO_SHORT = 18,  /* strip too short for the preview */
    ZEMBRUSHA_NOT_THAT_PREVIEW = 19, /* the strip's front is not the preview of that line and cycle */
    ZEMBRUSHA_BAD_LENGTHS = 20,      /* two lists of unequal lengths, or longer than 4,096 words */
    ZEMBRUSHA_BAD_COEFFICIENTS = 21  /* coefficient column not as long as the page */
};

/* The kinds of watches. In a gathered session a line's coefficient stands for its sign in kinds 1 and 4, and kind 2
 * leaves it out. */
enum zembrusha_kind {
    ZEMBRUSHA_LINE_CHARACTER = 1, /* whole: a line's signed character */
    ZEMBRUSHA_LINE_RATIO = 2,     /* ratio: that character divided by the character degree of the line's shape */
    ZEMBRUSHA_SETTLED = 3,        /* whole: the settled sum */
    ZEMBRUSHA_WAITING = 4,        /* whole: the sum of all signed waiting characters */
    ZEMBRUSHA_STEPS = 5           /* whole: the steps so far */
};

/* The modes of a session, as its slip says them. */
enum zembrusha_mode {
    ZEMBRUSHA_PLAIN = 0,   /* each line has its sign, and equal lines stand side by side */
    ZEMBRUSHA_GATHERED = 1 /* each line has a coefficient, and no two lines are equal */
};

/* The largest degree, the longest page, the longest list of shapes, how many partitions the largest degree has (the
 * longest column), as many words as are enough for every preview, since a line of degree at most 16 has at most 16
 * hooks, and as many bytes as are enough for every plain session's text: its first six lines have fewer than 256
 * together, and each waiting line has fewer than 72, since a partition has at most 31, sixteen ones and the commas
 * between them. 256 + 4,096 * 72. In a gathered session's text the first seven lines have fewer than 256 together, too,
 * and each waiting line has fewer than 92, since a coefficient of at most 20 stands for the sign. 256 + 4,096 * 92. */
enum zembrusha_limit {
    ZEMBRUSHA_DEGREE_LIMIT = 16,
    ZEMBRUSHA_PAGE_LIMIT = 4096,
    ZEMBRUSHA_LIST_LIMIT = 4096,
    ZEMBRUSHA_LONGEST_COLUMN = 231,
    ZEMBRUSHA_STRIP_ROOM = 16,
    ZEMBRUSHA_TEXT_ROOM = 295168,
    ZEMBRUSHA_GATHERED_TEXT_ROOM = 377088
};

/* A word or a count, with the refusal number in front; the number is 0 when refused. */
struct zembrusha_number {
    uint32_t refused;
    uint64_t number;
};

/* A good shape word, with the refusal number in front, and how many ones were dropped; both are 0 when refused. */
struct zembrusha_good {
    uint32_t refused;
    uint32_t word;
    uint32_t dropped;
};

/* What refuses a list of words: the refusal number in front, and the index of the first bad word, from 0; the index is
 * 0 for every other answer. */
struct zembrusha_listed {
    uint32_t refused;
    uint64_t index;
};

/* A session's slip: the shape, by its good word, and the class asked for, the settled sum, the number of waiting lines,
 * the steps, and the mode: ZEMBRUSHA_PLAIN or ZEMBRUSHA_GATHERED. Any other mode is not sound, and a call of one mode
 * refuses a slip of the other by 7. */
struct zembrusha_slip {
    uint32_t shape;
    uint32_t class_word;
    int64_t settled;
    uint64_t lines;
    int64_t steps;
    uint32_t mode;
};

/* A slip that is handed back, with the refusal number in front. */
struct zembrusha_handed {
    uint32_t refused;
    struct zembrusha_slip slip;
};

/* A slip that is read from a text, with the refusal number in front, and the text's line that 16 is given for, from 1;
 * the line is 0 for every other answer. */
struct zembrusha_loaded {
    uint32_t refused;
    uint64_t line;
    struct zembrusha_slip slip;
};

/* ---- One shape and one class. Each value has beside it the refusal number for the same words; the good word has it in
 * its own answer. */

/* The character of a shape on a class. Refuses 1, 3, 2, 4, 5. */
int64_t zembrusha_character(uint32_t shape, uint32_t class);

/* Why zembrusha_character refuses these words, or 0. */
uint32_t zembrusha_character_refusal(uint32_t shape, uint32_t class);

/* The degree n of a shape: the sum of its rows. Refuses 1, 2. */
int64_t zembrusha_degree(uint32_t shape);

/* Why zembrusha_degree refuses this word, or 0. */
uint32_t zembrusha_degree_refusal(uint32_t shape);

/* The character degree of a shape: its character on (1^n). Refuses 1, 2. */
int64_t zembrusha_character_degree(uint32_t shape);

/* Why zembrusha_character_degree refuses this word, or 0. */
uint32_t zembrusha_character_degree_refusal(uint32_t shape);

/* The word of the conjugate shape, rows and columns exchanged. Refuses 1, 2. */
uint32_t zembrusha_conjugate(uint32_t shape);

/* Why zembrusha_conjugate refuses this word, or 0. */
uint32_t zembrusha_conjugate_refusal(uint32_t shape);

/* The good word of a shape, and how many ones in front of the word given were dropped, 0 to 31: 0x40000000 is the empty
 * shape, 0, with one dropped. Refuses 1, 2. */
struct zembrusha_good zembrusha_good_shape(uint32_t word);

/* The sign of a class, 1 or -1. Refuses 3, 4. */
int64_t zembrusha_class_sign(uint32_t class);

/* Why zembrusha_class_sign refuses this word, or 0. */
uint32_t zembrusha_class_sign_refusal(uint32_t class);

/* The number of permutations in a class. Refuses 3, 4. */
int64_t zembrusha_class_size(uint32_t class);

/* Why zembrusha_class_size refuses this word, or 0. */
uint32_t zembrusha_class_size_refusal(uint32_t class);

/* The period of a class: the least positive number that every part divides. An element of the class, repeated, is first
 * back after so many times. That of the empty class is 1. Refuses 3, 4. */
int64_t zembrusha_class_period(uint32_t class);

/* Why zembrusha_class_period refuses this word, or 0. */
uint32_t zembrusha_class_period_refusal(uint32_t class);

/* ---- With a lent run. */

/* The shape word of a part list, longest part first. Refuses 3, 2. */
struct zembrusha_number zembrusha_shape_word(const uint8_t *parts, size_t count);

/* The class word of a part list, longest part first. Refuses 3, 4. */
struct zembrusha_number zembrusha_class_word(const uint8_t *parts, size_t count);

/* The rows of a shape to the front of the column, and their count; the rest of the column stays. Refuses 1, 2, 14. */
struct zembrusha_number zembrusha_shape_parts(uint32_t shape, uint8_t *column, size_t length);

/* The parts of a class to the front of the column, and their count; the rest of the column stays. Refuses 3, 4, 14. */
struct zembrusha_number zembrusha_class_parts(uint32_t class, uint8_t *column, size_t length);

/* The characters of all shapes of the class's degree on the class, in decreasing lexicographic order of the shapes, to
 * the front of the values, and their count; the rest of the values stays. Refuses 3, 4, 14. */
struct zembrusha_number zembrusha_column(uint32_t class, int64_t *values, size_t length);

/* ---- Whole lists of shapes, of at most 4,096 words, moved from the old form, in which an archive packs a shape as
 * zembrusha_class_word packs a class, to good shape words, and back. One run is read and one is written, of equal
 * length; each word becomes that of the same partition in the other form, and there and back is the list again. All
 * words are judged before the first is written. */

/* Good shape words of shapes in the old form. Refuses 20, then 3 or 4 for the first bad word, with its index. */
struct zembrusha_listed zembrusha_shapes_from_old(const uint32_t *old, size_t count, uint32_t *new, size_t room);

/* And back: the old form of shapes given as good shape words. Refuses 20, then 1 or 2 for the first bad word, with its
 * index: 1 for a word with ones in front, too. */
struct zembrusha_listed zembrusha_shapes_to_old(const uint32_t *new, size_t count, uint32_t *old, size_t room);

/* ---- Plain sessions, on a page of 0 to 4,096 words that the caller lends. A waiting line is one word: bit 63 is set
 * for a minus sign, bits 62 to 32 are the shape word, bits 31 to 0 the class word. The shape words of slip and lines
 * are good ones; one with ones in front is not sound. Slip and page are handed on together: an older slip may pass as
 * sound on a later page, and its sum is another. A step is two calls: a preview puts the new lines on a strip that the
 * caller lends, and a commit takes that strip and finishes the step. */

/* Opens a session: one line on the page, zeros after it (at degree 0 no line, and settled is 1). Slip and line get the
 * good word of the shape. Refuses 1, 3, 2, 4, 5, 6, 10, with a slip of zeros. */
struct zembrusha_handed zembrusha_open(uint32_t shape, uint32_t class, uint64_t *page, size_t words);

/* The new lines that a commit of this line, numbered from 0, and this cycle would put on the page, to the front of the
 * strip, and their count; the rest of the strip stays. There is one for each hook of that length, in the order of the
 * hooks; a hook that leaves the empty shape makes none. The strip may have any length, and ZEMBRUSHA_STRIP_ROOM words
 * are always enough. Refuses 6, 7, 8, 9, 18. */
struct zembrusha_number zembrusha_preview(
    struct zembrusha_slip slip, const uint64_t *page, size_t words, uint64_t line, uint64_t cycle, uint64_t *strip,
    size_t length);

/* Strikes a cycle from a line, only where the strip's front is exactly their preview now: the line is taken out, later
 * lines move down, and the new lines are put at the end; a hook that leaves the empty shape adds its sign to settled
 * instead. The strip may have any length, and what stands behind its front is not looked at; where there is no new
 * line, any strip will do. Refuses 6, 7, 8, 9, 19, 10, with the slip that was given. With the strip of an accepted
 * preview of the same slip, page, line and cycle nothing but 10 refuses it. */
struct zembrusha_handed zembrusha_commit(
    struct zembrusha_slip slip, uint64_t *page, size_t words, uint64_t line, uint64_t cycle, const uint64_t *strip,
    size_t length);

/* What a watch of kind 1, 3, 4 or 5 shows; 0 for kind 2 and where it is refused. Kinds 3 to 5 ignore the line. Refuses
 * 6, 7, 15, 8. */
int64_t zembrusha_watch_whole(
    struct zembrusha_slip slip, const uint64_t *page, size_t words, uint64_t kind, uint64_t line);

/* What a watch of kind 2 shows; 0 for every other kind and where it is refused. Refuses 6, 7, 15, 8. */
double zembrusha_watch_ratio(
    struct zembrusha_slip slip, const uint64_t *page, size_t words, uint64_t kind, uint64_t line);

/* Why a watch is refused, or 0. */
uint32_t zembrusha_watch_refusal(
    struct zembrusha_slip slip, const uint64_t *page, size_t words, uint64_t kind, uint64_t line);

/* ---- A plain session as text, to be put away and taken up again. A session has one text, and a text one session. Each
 * line ends in a newline; the last stands for as many as wait, each with its sign, its shape and its class:
 *
 *     degree=5
 *     shape=3,2
 *     class=3,2
 *     steps=1
 *     settled=0
 *     lines=1
 *     line=-;1,1;2
 *
 * Numbers are decimal with no needless zero, and only a negative settled has a minus. A partition is its parts, longest
 * first, with commas between them; the empty one is nothing. No zero byte stands at the end. */

/* Writes the session's text to the front of the text, and gives its length; the rest of the text stays.
 * ZEMBRUSHA_TEXT_ROOM bytes are always enough. Refuses 6, 7, 17. */
struct zembrusha_number zembrusha_save(
    struct zembrusha_slip slip, const uint64_t *page, size_t words, uint8_t *text, size_t length);

/* Reads a text of any length: its waiting lines to the page, zeros after them. Refuses 6, 16, 10, 7, with a slip of
 * zeros. 16 comes with the first line that is lacking, not of its form or without its newline, or that has a list which
 * is no partition of 0 to 16, a number too big to hold (degree in 64 bits; steps and settled in 64 with a sign), a
 * degree other than the shape's, or a count other than that of all lines after it. A text that is not as it was saved
 * may be read too, as a sound session of which settled plus waiting need not be the character asked for. */
struct zembrusha_loaded zembrusha_load(const uint8_t *text, size_t length, uint64_t *page, size_t words);

/* ---- Gathered sessions, in which like lines are joined. Beside the page the caller lends a column of coefficients, as
 * long as the page, else 21. A waiting line is a word with a clear sign digit, bit 63, and its coefficient, not 0, in
 * the same place of the column; the coefficients after those of the lines are 0, as are the words. No two lines are
 * equal. Slip, page and column are handed on together.
 *
 * Sound is as in the plain mode, with this: each line's d! counts as often as the size of its coefficient says, its
 * S(d) once. What is said of the plain calls holds of these too, and 21 comes after 6. A refused call writes neither
 * page nor column. */

/* Opens a gathered session: one line on the page with the coefficient 1, zeros after both (at degree 0 no line, and
 * settled is 1). Refuses 1, 3, 2, 4, 5, 6, 21, 10, with a slip of zeros. */
struct zembrusha_handed zembrusha_gathered_open(
    uint32_t shape, uint32_t class, uint64_t *page, size_t words, int64_t *coefficients, size_t count);

/* The hooks of this line and this cycle that leave a line, to the front of the strip, and their count; the rest of the
 * strip stays. Each is a word with the hook's own sign in bit 63, whatever the line's coefficient is: what
 * zembrusha_preview shows of that line with a plus sign. ZEMBRUSHA_STRIP_ROOM words are always enough. Refuses 6, 21,
 * 7, 8, 9, 18. */
struct zembrusha_number zembrusha_gathered_preview(
    struct zembrusha_slip slip, const uint64_t *page, size_t words, const int64_t *coefficients, size_t count,
    uint64_t line, uint64_t cycle, uint64_t *strip, size_t length);

/* Strikes a cycle from a line, only where the strip's front is exactly their preview now: the line is taken out, and
 * each hook brings that line's coefficient times its own sign: to settled where it leaves the empty shape, to the line
 * that is equal to what it leaves, or else to a new line at the end. A line whose coefficient becomes 0 is taken out,
 * and later lines move down. Refuses 6, 21, 7, 8, 9, 19, 10, with the slip that was given; 10 is judged by the lines
 * that there are after all that. */
struct zembrusha_handed zembrusha_gathered_commit(
    struct zembrusha_slip slip, uint64_t *page, size_t words, int64_t *coefficients, size_t count, uint64_t line,
    uint64_t cycle, const uint64_t *strip, size_t length);

/* What a watch of kind 1, 3, 4 or 5 shows; 0 for kind 2 and where it is refused. Kinds 1 and 4 multiply each character
 * by its line's coefficient. Refuses 6, 21, 7, 15, 8. */
int64_t zembrusha_gathered_watch_whole(
    struct zembrusha_slip slip, const uint64_t *page, size_t words, const int64_t *coefficients, size_t count,
    uint64_t kind, uint64_t line);

/* What a watch of kind 2 shows, the character divided by the character degree, without the coefficient; 0 for every
 * other kind and where it is refused. Refuses 6, 21, 7, 15, 8. */
double zembrusha_gathered_watch_ratio(
    struct zembrusha_slip slip, const uint64_t *page, size_t words, const int64_t *coefficients, size_t count,
    uint64_t kind, uint64_t line);

/* Why a watch of a gathered session is refused, or 0. */
uint32_t zembrusha_gathered_watch_refusal(
    struct zembrusha_slip slip, const uint64_t *page, size_t words, const int64_t *coefficients, size_t count,
    uint64_t kind, uint64_t line);

/* ---- A gathered session as text. It has one line more, the first, and each waiting line has its coefficient, with a
 * minus where it is negative, in place of the sign:
 *
 *     mode=gathered
 *     degree=8
 *     shape=4,4
 *     class=2,2,2,2
 *     steps=3
 *     settled=0
 *     lines=3
 *     line=2;2,2;2,2
 *     line=-1;3,1;2,2
 *     line=1;4;2,2
 *
 * So `degree` is line 2, and `lines` line 7. A text of one mode is not of the other's form: its line 1 is at fault. */

/* Writes the session's text to the front of the text, and gives its length; the rest of the text stays.
 * ZEMBRUSHA_GATHERED_TEXT_ROOM bytes are always enough. Refuses 6, 21, 7, 17. */
struct zembrusha_number zembrusha_gathered_save(
    struct zembrusha_slip slip, const uint64_t *page, size_t words, const int64_t *coefficients, size_t count,
    uint8_t *text, size_t length);

/* Reads a text of any length: its waiting lines to the page and their coefficients to the column, zeros after both.
 * Refuses 6, 21, 16, 10, 7, with a slip of zeros; 16 as zembrusha_load does, and for a coefficient that 64 bits with a
 * sign do not hold. A coefficient of 0 and two equal lines are of the form, and not sound. */
struct zembrusha_loaded zembrusha_gathered_load(
    const uint8_t *text, size_t length, uint64_t *page, size_t words, int64_t *coefficients, size_t count);

#endif
