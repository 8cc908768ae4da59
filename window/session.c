/* session.c: a session of the library, opened for a shape and a class or taken up again, previewed, struck, watched and
 * shown. */
#include <inttypes.h>
#include <stdio.h>

#include "modes.h"
#include "partitions.h"
#include "refusals.h"
#include "session.h"

/* Whether the lines have coefficients. */
static bool gathered(const struct session *session)
{
    return session->slip.mode == ZEMBRUSHA_GATHERED;
}

/* Settled plus the sum of all signed waiting characters. */
static int64_t settled_plus_waiting(const struct session *session)
{
    return call_watch_whole(session, ZEMBRUSHA_SETTLED, 0) + call_watch_whole(session, ZEMBRUSHA_WAITING, 0);
}

/* Keeps how the session begins and its slip, and settled plus waiting, which no strike may change. */
static void begin_session(struct session *session, const char *beginning, struct zembrusha_slip slip)
{
    session->beginning = beginning;
    session->slip = slip;
    session->sum = settled_plus_waiting(session);
    session->character = zembrusha_character(slip.shape, slip.class_word);
}

/* Keeps what the library hands back. */
void open_session(struct session *session, enum zembrusha_mode mode, uint32_t shape, uint32_t class)
{
    struct zembrusha_handed handed = call_open(session, mode, shape, class);
    if (handed.refused != 0) {
        refuse(handed.refused);
        return;
    }
    begin_session(session, "opening", handed.slip);
}

/* The slip of a text may be of a session that began with no opening: its sum is then another than the character. */
void take_up_session(struct session *session, struct zembrusha_slip slip)
{
    begin_session(session, "load", slip);
    if (session->sum != session->character) {
        printf("this session began with no opening: settled plus waiting is %" PRId64 ", ", session->sum);
        printf("the character is %" PRId64 "\n", session->character);
    }
}

/* Commits what was previewed, and keeps what the library hands back: where it refuses, the slip that was given. Gives
 * why it is refused, or 0. */
static uint32_t commit(struct session *session, uint64_t line, uint64_t cycle, const uint64_t *strip)
{
    struct zembrusha_handed handed = call_commit(session, line, cycle, strip);
    session->slip = handed.slip;
    return handed.refused;
}

/* A strike is a preview and its commit. */
void strike_cycle(struct session *session, uint64_t line, uint64_t cycle)
{
    uint64_t strip[ZEMBRUSHA_STRIP_ROOM] = {0};
    uint32_t refused = call_preview(session, line, cycle, strip).refused;
    if (refused == 0) {
        refused = commit(session, line, cycle, strip);
    }
    if (refused != 0) {
        refuse_session(session->slip.mode, refused);
    }
}

/* The shape and the class that a word of a page or a strip has. */
static void show_pair(uint64_t word)
{
    struct shown shape = shape_text((uint32_t)(word >> 32) & 0x7FFFFFFF);
    printf("%s on %s", shape.text, class_text((uint32_t)word).text);
}

/* These and the sign before them. */
static void show_word(uint64_t word)
{
    printf("%c ", word >> 63 == 1 ? '-' : '+');
    show_pair(word);
}

/* What a strike would add to settled. No call tells it, so the commit is made on a copy of the session: the number is
 * then the library's own, from the call that a strike makes, and so is the refusal where the page has no room. */
static void show_settling(const struct session *session, uint64_t line, uint64_t cycle, const uint64_t *strip)
{
    struct session copy = *session;
    uint32_t refused = commit(&copy, line, cycle, strip);
    if (refused == 0) {
        printf("would be added to settled: %" PRId64 "\n", copy.slip.settled - session->slip.settled);
    } else {
        printf("a strike would be ");
        refuse_session(session->slip.mode, refused);
    }
}

/* The waiting line that a hook is joined to, where there is one, and what becomes of it by what the hook brings. */
static void show_joined(const struct session *session, uint64_t hook, int64_t brought)
{
    for (uint64_t line = 0; line < session->slip.lines; line++) {
        if (session->page[line] == (hook & INT64_MAX)) {
            int64_t sum = session->coefficients[line] + brought;
            printf(", to line %" PRIu64 ", which becomes %" PRId64 "%s", line, sum, sum == 0 ? " and goes" : "");
        }
    }
}

/* What a hook would bring: a line with its sign; or in a gathered session what it leaves, with its own sign, as many
 * times as the struck line's coefficient says. */
static void show_hook(const struct session *session, uint64_t line, uint64_t hook)
{
    if (gathered(session)) {
        int64_t times = session->coefficients[line];
        printf("would come, times %" PRId64 ": ", times);
        show_word(hook);
        show_joined(session, hook, hook >> 63 == 1 ? -times : times);
    } else {
        printf("would come: ");
        show_word(hook);
    }
    printf("\n");
}

/* The lines in the order of the hooks, and below them what would be settled. */
void preview_cycle(const struct session *session, uint64_t line, uint64_t cycle)
{
    uint64_t strip[ZEMBRUSHA_STRIP_ROOM] = {0};
    struct zembrusha_number previewed = call_preview(session, line, cycle, strip);
    if (previewed.refused != 0) {
        refuse_session(session->slip.mode, previewed.refused);
        return;
    }
    for (uint64_t i = 0; i < previewed.number; i++) {
        show_hook(session, line, strip[i]);
    }
    if (previewed.number == 0) {
        printf("no line would come\n");
    }
    show_settling(session, line, cycle, strip);
}

/* The bound on the steps of an opening of degree n: S(0) = 0 and S(d) = 1 + d S(d-1). */
static int64_t most_steps(int64_t n)
{
    int64_t bound = 0;
    for (int64_t d = 1; d <= n; d++) {
        bound = 1 + d * bound;
    }
    return bound;
}

/* The cycles that may be struck: each length of the class once. */
static void show_cycles(const struct partition *cycles)
{
    printf("strike");
    for (size_t i = 0; i < cycles->count; i++) {
        if (i == 0 || cycles->parts[i] != cycles->parts[i - 1]) {
            printf("%s %u", i == 0 ? "" : " or", cycles->parts[i]);
        }
    }
}

/* What a line's watches show: its character with its sign or times its coefficient, and its ratio. */
static void show_watches(const struct session *session, uint64_t line)
{
    const char *name = gathered(session) ? "coefficient times character" : "signed character";
    int64_t character = call_watch_whole(session, ZEMBRUSHA_LINE_CHARACTER, line);
    printf(", %s %" PRId64 ", ratio %g", name, character, call_watch_ratio(session, line));
}

/* A waiting line: number, sign or coefficient, shape, class, cycles; where it is watched, what its watches show. */
static void show_line(const struct session *session, uint64_t line, bool watched)
{
    struct partition cycles = class_partition((uint32_t)session->page[line]);
    printf("line %" PRIu64 ": ", line);
    if (gathered(session)) {
        printf("%" PRId64 " ", session->coefficients[line]);
        show_pair(session->page[line]);
    } else {
        show_word(session->page[line]);
    }
    printf(", ");
    show_cycles(&cycles);
    if (watched) {
        show_watches(session, line);
    }
    printf("\n");
}

/* The sum of the waiting lines, and whether settled plus waiting is what it was at the beginning. */
static void show_sums(const struct session *session)
{
    int64_t sum = settled_plus_waiting(session);
    printf("sum of the waiting lines: %" PRId64 "\n", call_watch_whole(session, ZEMBRUSHA_WAITING, 0));
    printf("settled plus waiting: %" PRId64 ", ", sum);
    if (sum == session->sum) {
        printf("unchanged since the %s\n", session->beginning);
    } else {
        printf("CHANGED from %" PRId64 " at the %s\n", session->sum, session->beginning);
    }
}

/* Whether the session may be watched; where it is refused, it says so. */
static bool may_watch(const struct session *session)
{
    uint32_t refused = call_watch_refusal(session, ZEMBRUSHA_WAITING, 0);
    if (refused != 0) {
        refuse_session(session->slip.mode, refused);
    }
    return refused == 0;
}

/* What is settled where no line waits: the character, save in a session that began with no opening. */
static void show_end(const struct session *session)
{
    int64_t settled = session->slip.settled;
    if (settled == session->character) {
        printf("no line waits: the character is %" PRId64 "\n", settled);
    } else {
        printf("no line waits: settled is %" PRId64 ", the character is %" PRId64 "\n", settled, session->character);
    }
}

/* How the session stands, with signed characters, ratios and sums where they are wanted. */
void show_session(const struct session *session, bool wanted)
{
    if (session->beginning == NULL) {
        printf("nothing is open\n");
        return;
    }
    bool watched = wanted && may_watch(session);
    const struct zembrusha_slip *slip = &session->slip;
    int64_t bound = most_steps(zembrusha_degree(slip->shape));
    const char *mode = gathered(session) ? ", gathered" : "";
    printf("%s on %s%s: ", shape_text(slip->shape).text, class_text(slip->class_word).text, mode);
    printf("settled %" PRId64 ", steps %" PRId64 " of at most %" PRId64 "\n", slip->settled, slip->steps, bound);
    for (uint64_t line = 0; line < slip->lines; line++) {
        show_line(session, line, watched);
    }
    if (slip->lines == 0) {
        show_end(session);
    }
    if (watched) {
        show_sums(session);
    }
}
