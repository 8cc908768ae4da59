/* modes.c: the library's calls on a session, in the session's own mode. The column of coefficients is as long as the
 * page; a plain session does not use it. */
#include "modes.h"

enum { ROOM = ZEMBRUSHA_PAGE_LIMIT };

static bool gathered(const struct session *session)
{
    return session->slip.mode == ZEMBRUSHA_GATHERED;
}

struct zembrusha_handed call_open(struct session *session, enum zembrusha_mode mode, uint32_t shape, uint32_t class)
{
    if (mode == ZEMBRUSHA_GATHERED) {
        return zembrusha_gathered_open(shape, class, session->page, ROOM, session->coefficients, ROOM);
    }
    return zembrusha_open(shape, class, session->page, ROOM);
}

struct zembrusha_number call_preview(const struct session *session, uint64_t line, uint64_t cycle, uint64_t *strip)
{
    if (gathered(session)) {
        return zembrusha_gathered_preview(session->slip, session->page, ROOM, session->coefficients, ROOM, line, cycle,
                                          strip, ZEMBRUSHA_STRIP_ROOM);
    }
    return zembrusha_preview(session->slip, session->page, ROOM, line, cycle, strip, ZEMBRUSHA_STRIP_ROOM);
}

struct zembrusha_handed call_commit(struct session *session, uint64_t line, uint64_t cycle, const uint64_t *strip)
{
    if (gathered(session)) {
        return zembrusha_gathered_commit(session->slip, session->page, ROOM, session->coefficients, ROOM, line, cycle,
                                         strip, ZEMBRUSHA_STRIP_ROOM);
    }
    return zembrusha_commit(session->slip, session->page, ROOM, line, cycle, strip, ZEMBRUSHA_STRIP_ROOM);
}

int64_t call_watch_whole(const struct session *session, enum zembrusha_kind kind, uint64_t line)
{
    if (gathered(session)) {
        return zembrusha_gathered_watch_whole(session->slip, session->page, ROOM, session->coefficients, ROOM, kind,
                                              line);
    }
    return zembrusha_watch_whole(session->slip, session->page, ROOM, kind, line);
}

double call_watch_ratio(const struct session *session, uint64_t line)
{
    if (gathered(session)) {
        return zembrusha_gathered_watch_ratio(session->slip, session->page, ROOM, session->coefficients, ROOM,
                                              ZEMBRUSHA_LINE_RATIO, line);
    }
    return zembrusha_watch_ratio(session->slip, session->page, ROOM, ZEMBRUSHA_LINE_RATIO, line);
}

uint32_t call_watch_refusal(const struct session *session, enum zembrusha_kind kind, uint64_t line)
{
    if (gathered(session)) {
        return zembrusha_gathered_watch_refusal(session->slip, session->page, ROOM, session->coefficients, ROOM, kind,
                                                line);
    }
    return zembrusha_watch_refusal(session->slip, session->page, ROOM, kind, line);
}

struct zembrusha_number call_save(const struct session *session, uint8_t *text, size_t length)
{
    if (gathered(session)) {
        return zembrusha_gathered_save(session->slip, session->page, ROOM, session->coefficients, ROOM, text, length);
    }
    return zembrusha_save(session->slip, session->page, ROOM, text, length);
}

struct zembrusha_loaded call_load(
    struct session *session, enum zembrusha_mode mode, const uint8_t *text, size_t length)
{
    if (mode == ZEMBRUSHA_GATHERED) {
        return zembrusha_gathered_load(text, length, session->page, ROOM, session->coefficients, ROOM);
    }
    return zembrusha_load(text, length, session->page, ROOM);
}
