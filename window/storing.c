/* storing.c: a session put away in a file, and taken up again. The text is the library's. */
#include <inttypes.h>
#include <stdio.h>
#include <stdlib.h>
#include <string.h>

#include "files.h"
#include "modes.h"
#include "refusals.h"
#include "storing.h"

/* A file's name, with a ? for what a terminal would not show but obey. */
static void show_name(const char *name)
{
    for (const char *at = name; *at != '\0'; at++) {
        putchar((unsigned char)*at < ' ' || *at == '\x7F' ? '?' : *at);
    }
}

/* Says what has been done with a file, or has not. */
static void say(const char *what, const char *name, const char *fault)
{
    printf("%s ", what);
    show_name(name);
    printf("%s%s\n", fault == NULL ? "" : ": ", fault == NULL ? "" : fault);
}

/* The room is enough for every session of either mode, so that a save has no length to ask for. */
void save_session(const struct session *session, const char *name)
{
    static uint8_t text[ZEMBRUSHA_GATHERED_TEXT_ROOM];
    if (session->beginning == NULL) {
        say("not saved:", name, "nothing is open");
        return;
    }
    struct zembrusha_number saved = call_save(session, text, sizeof text);
    if (saved.refused != 0) {
        refuse_session(session->slip.mode, saved.refused);
        return;
    }
    const char *fault = replace_file(name, text, (size_t)saved.number);
    say(fault == NULL ? "saved" : "not saved:", name, fault);
}

/* The mode of a text: its first line says it where it is not the plain one. */
static enum zembrusha_mode text_mode(const struct contents *text)
{
    static const char said[] = "mode=";
    size_t length = sizeof said - 1;
    bool is_said = text->length >= length && memcmp(text->bytes, said, length) == 0;
    return is_said ? ZEMBRUSHA_GATHERED : ZEMBRUSHA_PLAIN;
}

/* Takes up what a text says; the library leaves page and coefficients as they were where it refuses. */
static void load_text(struct session *session, const struct contents *text, const char *name)
{
    enum zembrusha_mode mode = text_mode(text);
    struct zembrusha_loaded loaded = call_load(session, mode, text->bytes, text->length);
    if (loaded.refused == ZEMBRUSHA_BAD_TEXT) {
        refuse_text(mode, loaded.line);
    } else if (loaded.refused != 0) {
        refuse_session(mode, loaded.refused);
    } else {
        say("loaded", name, NULL);
        take_up_session(session, loaded.slip);
    }
}

void load_session(struct session *session, const char *name)
{
    struct contents text = {NULL, 0};
    const char *fault = read_file(name, &text);
    if (fault == NULL) {
        load_text(session, &text, name);
    } else {
        say("not loaded:", name, fault);
    }
    free(text.bytes);
}
