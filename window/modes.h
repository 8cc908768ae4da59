/* modes.h: the library's calls on a session, in the session's own mode. */
#ifndef MODES_H
#define MODES_H

#include <stddef.h>
#include <stdint.h>

#include "session.h"
#include "zembrusha.h"

/* Opens a session of this mode on the page, and in the column where it is a gathered one. */
struct zembrusha_handed call_open(struct session *session, enum zembrusha_mode mode, uint32_t shape, uint32_t class);

/* Previews a strike onto a strip of ZEMBRUSHA_STRIP_ROOM words, which are enough. */
struct zembrusha_number call_preview(const struct session *session, uint64_t line, uint64_t cycle, uint64_t *strip);

/* Commits what was previewed onto that strip. */
struct zembrusha_handed call_commit(struct session *session, uint64_t line, uint64_t cycle, const uint64_t *strip);

/* What a watch of a whole number shows. */
int64_t call_watch_whole(const struct session *session, enum zembrusha_kind kind, uint64_t line);

/* What a watch of a line's ratio shows. */
double call_watch_ratio(const struct session *session, uint64_t line);

/* Why a watch is refused, or 0. */
uint32_t call_watch_refusal(const struct session *session, enum zembrusha_kind kind, uint64_t line);

/* Writes the session's text, for which ZEMBRUSHA_GATHERED_TEXT_ROOM bytes are enough in either mode. */
struct zembrusha_number call_save(const struct session *session, uint8_t *text, size_t length);

/* Reads a text of this mode to the page, and to the column where it is a gathered one. */
struct zembrusha_loaded call_load(
    struct session *session, enum zembrusha_mode mode, const uint8_t *text, size_t length);

#endif
