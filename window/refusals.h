/* refusals.h: what the window says where something is refused. */
#ifndef REFUSALS_H
#define REFUSALS_H

#include <stdint.h>

#include "zembrusha.h"

/* Says that something is refused, by the number of zembrusha.h and in words. */
void refuse(uint32_t refused);

/* The same of a call on a session of this mode. */
void refuse_session(enum zembrusha_mode mode, uint32_t refused);

/* Refuses input that is not of its form, and says what form it should have. */
void refuse_input(const char *form);

/* Refuses a session's text for its line of this number, from 1, and says what that line should be in this mode. */
void refuse_text(enum zembrusha_mode mode, uint64_t line);

#endif
