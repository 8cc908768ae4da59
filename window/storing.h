/* storing.h: a session put away in a file, and taken up again. */
#ifndef STORING_H
#define STORING_H

#include "session.h"

/* Saves the session's text in a file. Where that fails, it says so, and the file stays as it was. */
void save_session(const struct session *session, const char *name);

/* Loads a session from a file in the place of this one. Where that fails, it says so, and this one stays as it was. */
void load_session(struct session *session, const char *name);

#endif
