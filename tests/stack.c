/* stack.c: the stack that calls take. Each is made on a stack that is painted before it; what has lost its paint was
 * written to. What a call of nothing takes is left out, and room that is set aside and not written to is not seen.
 * Every shape is asked for on every class of degrees 0 to 16; a column of degree 16; the calls on a gathered session of
 * more lines than are few to the library, so that its large arrays are used; and a load that does not come to them.
 * Prints a line for each kind, 'ok ..' or 'FAILED ..', with what was seen. */
#define _GNU_SOURCE

#include <inttypes.h>
#include <stdbool.h>
#include <stdio.h>
#include <stdlib.h>
#include <string.h>
#include <ucontext.h>

#include "../window/zembrusha.h"

enum { CHARACTER_LIMIT = 560, COLUMN_LIMIT = 14 * 1024, GATHERED_LIMIT = 20 * 1024, LOAD_LIMIT = 88 * 1024 };
enum { NO_LOAD_LIMIT = 2 * 1024 };
enum { SHORT = 16 * 1024, STACK = 128 * 1024, PAINT = 0xA5 };
enum { DEGREES = 17, MOST = 231, SMALL = 6, LINES = 121, CYCLE = 6 };

struct partition {
    uint8_t parts[DEGREES];
    size_t count;
};

/* The partitions of one degree, longest part first. */
static struct partition all[MOST];
static size_t count;

static void list_from(struct partition begun, int left, int most)
{
    if (left == 0) {
        all[count++] = begun;
        return;
    }
    for (int part = left < most ? left : most; part > 0; part--) {
        struct partition longer = begun;
        longer.parts[longer.count++] = (uint8_t)part;
        list_from(longer, left - part, part);
    }
}

static void list(int degree)
{
    count = 0;
    list_from((struct partition){{0}, 0}, degree, degree);
}

static uint32_t shape_of(struct partition p)
{
    return (uint32_t)zembrusha_shape_word(p.parts, p.count).number;
}

static uint32_t class_of(struct partition p)
{
    return (uint32_t)zembrusha_class_word(p.parts, p.count).number;
}

/* ---- a call on the painted stack */
static void (*volatile call)(void);
static uint8_t painted[STACK];
static ucontext_t here, there;

static void body(void)
{
    call();
}

/* How many bytes of a painted stack of this size the call writes to, from its top to the lowest. */
static size_t taken(void (*which)(void), size_t size)
{
    size_t unpainted = 0;
    call = which;
    memset(painted, PAINT, size);
    getcontext(&there);
    there.uc_stack.ss_sp = painted;
    there.uc_stack.ss_size = size;
    there.uc_link = &here;
    makecontext(&there, body, 0);
    swapcontext(&here, &there);
    while (unpainted < size && painted[unpainted] == PAINT) {
        unpainted++;
    }
    return size - unpainted;
}

/* ---- the calls: what they are asked, and what they last refused with */
static volatile uint32_t shape, class_word, refused;
static int64_t values[MOST], coefficients[LINES];
static struct zembrusha_slip slip;
static uint64_t page[LINES], strip[ZEMBRUSHA_STRIP_ROOM];
static uint8_t text[ZEMBRUSHA_GATHERED_TEXT_ROOM];
static size_t length;

static void nothing(void)
{
    refused = 0;
}

static void character(void)
{
    zembrusha_character(shape, class_word);
}

static void column(void)
{
    refused = zembrusha_column(class_word, values, MOST).refused;
}

static void watch(void)
{
    zembrusha_gathered_watch_whole(slip, page, LINES, coefficients, LINES, 4, 0);
    refused = zembrusha_gathered_watch_refusal(slip, page, LINES, coefficients, LINES, 4, 0);
}

static void preview(void)
{
    refused = zembrusha_gathered_preview(
                  slip, page, LINES, coefficients, LINES, 0, CYCLE, strip, ZEMBRUSHA_STRIP_ROOM).refused;
}

static void save(void)
{
    struct zembrusha_number said =
        zembrusha_gathered_save(slip, page, LINES, coefficients, LINES, text, sizeof text);
    length = (size_t)said.number;
    refused = said.refused;
}

static void load(void)
{
    refused = zembrusha_gathered_load(text, length, page, LINES, coefficients, LINES).refused;
}

/* A load of a text whose last line lacks its newline, which is not judged: it needs none of the room for lines. */
static void no_load(void)
{
    refused = zembrusha_gathered_load(text, length - 1, page, LINES, coefficients, LINES).refused;
    refused = refused == ZEMBRUSHA_BAD_TEXT ? 0 : ZEMBRUSHA_BAD_TEXT;
}

static void commit(void)
{
    refused = zembrusha_gathered_commit(
                  slip, page, LINES, coefficients, LINES, 0, CYCLE, strip, ZEMBRUSHA_STRIP_ROOM).refused;
}

/* Every line of degree 6, each once, waits for a shape and a class of degree 16. */
static void fill(void)
{
    list(DEGREES - 1);
    slip.shape = shape_of(all[0]);
    slip.class_word = class_of(all[count - 1]);
    slip.lines = LINES;
    slip.mode = 1;
    list(SMALL);
    for (size_t i = 0; i < LINES; i++) {
        page[i] = (uint64_t)shape_of(all[i / count]) << 32 | class_of(all[i % count]);
        coefficients[i] = i % 2 == 0 ? 1 : -2;
    }
}

/* ---- the verdicts */
static bool failed;

static void verdict(const char *what, size_t used, size_t limit, bool asked)
{
    bool good = asked && used <= limit;
    printf("%s stack: %s takes %zu bytes, and may take %zu\n", good ? "ok" : "FAILED", what, used, limit);
    failed = failed || !good;
}

/* The most that any of these calls takes, none of them refused. */
static void deepest_of(const char *what, void (*const calls[])(void), size_t many, size_t idle, size_t limit)
{
    size_t deepest = 0;
    bool asked = true;
    for (size_t i = 0; i < many; i++) {
        size_t used = taken(calls[i], STACK) - idle;
        deepest = used > deepest ? used : deepest;
        asked = asked && refused == 0;
    }
    verdict(what, deepest, limit, asked);
}

int main(void)
{
    size_t idle = taken(nothing, SHORT), deepest = 0;
    bool asked = true;
    for (int degree = 0; degree < DEGREES; degree++) {
        list(degree);
        for (size_t i = 0; i < count; i++) {
            shape = shape_of(all[i]);
            for (size_t j = 0; j < count; j++) {
                class_word = class_of(all[j]);
                asked = asked && zembrusha_character_refusal(shape, class_word) == 0;
                size_t used = taken(character, SHORT) - idle;
                deepest = used > deepest ? used : deepest;
            }
        }
    }
    verdict("the deepest evaluation", deepest, CHARACTER_LIMIT, asked && count == MOST);
    deepest_of("a column", (void (*const[])(void)){column}, 1, idle, COLUMN_LIMIT);
    fill();
    deepest_of("a call on a gathered session", (void (*const[])(void)){watch, preview, save}, 3, idle, GATHERED_LIMIT);
    deepest_of("a gathered load", (void (*const[])(void)){load}, 1, idle, LOAD_LIMIT);
    deepest_of("a gathered load that is refused 16", (void (*const[])(void)){no_load}, 1, idle, NO_LOAD_LIMIT);
    deepest_of("a gathered commit", (void (*const[])(void)){commit}, 1, idle, GATHERED_LIMIT);
    return failed ? EXIT_FAILURE : EXIT_SUCCESS;
}
