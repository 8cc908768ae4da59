/* session.h: a session of the library, opened for a shape and a class or taken up again, previewed, struck, watched and
 * shown. */
#ifndef SESSION_H
#define SESSION_H

#include <stdbool.h>
#include <stdint.h>

#include "zembrusha.h"

/* The session: how it began, "opening" or "load", or NULL where there is none; what the library handed back last;
 * settled plus waiting at the beginning; and the character asked for, which is the same number after an opening. The
 * coefficients are those of the page's lines, where the session is a gathered one. */
struct session {
    const char *beginning;
    struct zembrusha_slip slip;
    int64_t sum;
    int64_t character;
    uint64_t page[ZEMBRUSHA_PAGE_LIMIT];
    int64_t coefficients[ZEMBRUSHA_PAGE_LIMIT];
};

/* Opens a session of a mode for a shape and a class. Where it is refused, it says so, and the session stays as it
 * was. */
void open_session(struct session *session, enum zembrusha_mode mode, uint32_t shape, uint32_t class);

/* Takes up the session of a slip, the lines of which stand on the page already, with their coefficients if it has
 * them. */
void take_up_session(struct session *session, struct zembrusha_slip slip);

/* Shows the lines that would come if a cycle were struck from a waiting line, and what would be settled; nothing is
 * changed. Where it is refused, it says so. */
void preview_cycle(const struct session *session, uint64_t line, uint64_t cycle);

/* Strikes a cycle from a waiting line. Where it is refused, it says so, and the session stays as it was. */
void strike_cycle(struct session *session, uint64_t line, uint64_t cycle);

/* Shows how the session stands, with signed characters, ratios and sums where they are wanted. */
void show_session(const struct session *session, bool wanted);

#endif
