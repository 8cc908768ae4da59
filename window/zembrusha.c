/* zembrusha: a window on the calculator, in the terminal. It opens a session for a shape and a class, previews and
 * strikes cycles of waiting lines, and shows after each command how the session stands. It reads commands from a person
 * at a terminal, whom it prompts, or from a script on standard input. Every number comes from the library's calls.
 *
 * Here are the commands and the prompt; session.c, storing.c and table.c do what is asked, reading.c reads what is
 * typed. */
#include <stdbool.h>
#include <stddef.h>
#include <stdint.h>
#include <stdio.h>
#include <stdlib.h>
#include <string.h>
#include <unistd.h>

#include "reading.h"
#include "refusals.h"
#include "session.h"
#include "storing.h"
#include "table.h"
#include "zembrusha.h"

/* What is to be done after a command. */
enum after { SHOW_NOTHING, SHOW_SESSION, SHOW_WATCHED, QUIT };

/* What follows a command's name is so many words, or this, the rest of the line, blanks inside included. */
enum { REST_OF_LINE = MOST_WORDS };

/* A command: its name, what follows, how many words more may follow, what it does, if anything, and what is done then;
 * how it is written, and what it is for. A word that may follow and does not is NULL. */
struct command {
    const char *name;
    size_t arguments;
    size_t more;
    void (*run)(struct session *session, char **arguments);
    enum after after;
    const char *form;
    const char *purpose;
};

/* ---- The commands. */

/* How open is written, and the word for its mode. */
static const char OPEN_FORM[] = "open SHAPE CLASS [gathered]";
static const char GATHERED[] = "gathered";

/* Opens a session, where the mode and both partitions are read. */
static void run_open(struct session *session, char **arguments)
{
    uint32_t shape = 0;
    uint32_t class = 0;
    enum zembrusha_mode mode = arguments[2] == NULL ? ZEMBRUSHA_PLAIN : ZEMBRUSHA_GATHERED;
    if (mode == ZEMBRUSHA_GATHERED && strcmp(arguments[2], GATHERED) != 0) {
        refuse_input(OPEN_FORM);
    } else if (read_shape(arguments[0], &shape) && read_class(arguments[1], &class)) {
        open_session(session, mode, shape, class);
    }
}

/* Shows a single character, where both partitions are read. */
static void run_character(struct session *session, char **arguments)
{
    uint32_t shape = 0;
    uint32_t class = 0;
    (void)session;
    if (read_shape(arguments[0], &shape) && read_class(arguments[1], &class)) {
        show_character(shape, class);
    }
}

/* Reads a line and a cycle. Where one of them is no number, it says so, with the form that they should have. */
static bool read_line_and_cycle(char **arguments, const char *form, uint64_t *line, uint64_t *cycle)
{
    bool both = read_number(arguments[0], line) && read_number(arguments[1], cycle);
    if (!both) {
        refuse_input(form);
    }
    return both;
}

/* Shows what striking a cycle from a line would bring, where both numbers are read. */
static void run_preview(struct session *session, char **arguments)
{
    uint64_t line = 0;
    uint64_t cycle = 0;
    if (read_line_and_cycle(arguments, "preview LINE CYCLE, both decimal numbers", &line, &cycle)) {
        preview_cycle(session, line, cycle);
    }
}

/* Strikes a cycle from a line, where both numbers are read. */
static void run_strike(struct session *session, char **arguments)
{
    uint64_t line = 0;
    uint64_t cycle = 0;
    if (read_line_and_cycle(arguments, "strike LINE CYCLE, both decimal numbers", &line, &cycle)) {
        strike_cycle(session, line, cycle);
    }
}

/* Puts the session away in a file. */
static void run_save(struct session *session, char **arguments)
{
    save_session(session, arguments[0]);
}

/* Takes up the session of a file. */
static void run_load(struct session *session, char **arguments)
{
    load_session(session, arguments[0]);
}

/* Shows a character table, where its degree is read and is at most 16. */
static void run_table(struct session *session, char **arguments)
{
    uint64_t degree = 0;
    (void)session;
    if (!read_number(arguments[0], &degree)) {
        refuse_input("table N, a decimal number");
    } else if (degree > ZEMBRUSHA_DEGREE_LIMIT) {
        refuse(ZEMBRUSHA_DEGREE_TOO_LARGE);
    } else {
        show_table(degree);
    }
}

/* Shows all commands; it stands below the list of them. */
static void run_help(struct session *session, char **arguments);

/* All commands, in the order in which help shows them. */
static const struct command COMMANDS[] = {
    {"open", 2, 1, run_open, SHOW_SESSION, OPEN_FORM, "opens a session, as open 3,2 3,2"},
    {"preview", 2, 0, run_preview, SHOW_SESSION, "preview LINE CYCLE",
     "shows what a strike would bring, as preview 0 3"},
    {"strike", 2, 0, run_strike, SHOW_SESSION, "strike LINE CYCLE",
     "strikes a cycle from a waiting line, as strike 0 3"},
    {"lines", 0, 0, NULL, SHOW_SESSION, "lines", "shows the session and its waiting lines"},
    {"watch", 0, 0, NULL, SHOW_WATCHED, "watch", "shows them with signed characters, ratios and sums"},
    {"save", REST_OF_LINE, 0, run_save, SHOW_SESSION, "save FILE",
     "puts the session away in a file, as save friday.txt"},
    {"load", REST_OF_LINE, 0, run_load, SHOW_SESSION, "load FILE", "takes it up again, in the place of this one"},
    {"character", 2, 0, run_character, SHOW_SESSION, "character SHAPE CLASS",
     "shows one character, as character 3,2 5"},
    {"table", 1, 0, run_table, SHOW_SESSION, "table N", "shows the character table of degree N, a row to a class"},
    {"help", 0, 0, run_help, SHOW_SESSION, "help", "shows this"},
    {"quit", 0, 0, NULL, QUIT, "quit", "ends"},
};

enum { COMMAND_COUNT = sizeof COMMANDS / sizeof COMMANDS[0] };

/* Shows how each command is written and what it is for, and what stands for its words. */
static void run_help(struct session *session, char **arguments)
{
    (void)session;
    (void)arguments;
    for (size_t i = 0; i < COMMAND_COUNT; i++) {
        printf("%-29s%s\n", COMMANDS[i].form, COMMANDS[i].purpose);
    }
    printf("SHAPE and CLASS are parts, longest first, or words, as 0x2C000000; the empty partition is 0x0.\n");
    printf("SHAPE words may have ones in front, as 0x56000000; these are dropped, which leaves 0x2C000000.\n");
    printf("With gathered, equal lines are joined to one with a coefficient, as open 2,2,2,2 2,2,2,2 gathered.\n");
    printf("LINE is the number of a waiting line, from 0; CYCLE is one of the numbers shown after strike.\n");
    printf("FILE is the rest of the line, blanks inside it included.\n");
    printf("FILE's first line says the mode: where it is mode=gathered, a gathered session is taken up.\n");
}

/* The command of a name; NULL where there is none. */
static const struct command *find_command(const char *name)
{
    for (size_t i = 0; i < COMMAND_COUNT; i++) {
        if (strcmp(name, COMMANDS[i].name) == 0) {
            return &COMMANDS[i];
        }
    }
    return NULL;
}

/* ---- The prompt. */

/* Cuts what follows a command's name; whether it is what the command wants. */
static bool cut_arguments(const struct command *command, char *rest, char *arguments[MOST_WORDS])
{
    if (command->arguments == REST_OF_LINE) {
        arguments[0] = rest;
        return *rest != '\0';
    }
    size_t count = cut_words(rest, arguments);
    return command->arguments <= count && count <= command->arguments + command->more;
}

/* Runs the command that a line has. */
static enum after run_line(struct session *session, char *line)
{
    char *arguments[MOST_WORDS] = {NULL};
    char *rest = cut_first(&line);
    if (*line == '\0') {
        return SHOW_NOTHING;
    }
    const struct command *command = find_command(line);
    if (command == NULL) {
        refuse_input("help lists the commands");
        return SHOW_SESSION;
    }
    if (!cut_arguments(command, rest, arguments)) {
        refuse_input(command->form);
        return SHOW_SESSION;
    }
    if (command->run != NULL) {
        command->run(session, arguments);
    }
    return command->after;
}

/* Answers the next line of input. */
static enum after answer(struct session *session, bool person)
{
    char line[LONGEST_LINE + 1];
    if (person) {
        printf("> ");
    }
    fflush(stdout);
    switch (read_line(line)) {
    case LINE_READ:
        return run_line(session, line);
    case LINE_BROKEN:
        refuse_input("a line of at most 1000 characters, none of them a zero byte");
        return SHOW_SESSION;
    default:
        fputs(person ? "\n" : "", stdout);
        return QUIT;
    }
}

/* Answers lines until quit or the end of input; a failure where what it wrote could not be written. */
int main(void)
{
    struct session session = {0};
    bool person = isatty(STDIN_FILENO) == 1;
    if (person) {
        printf("zembrusha: characters of the symmetric group, step by step. help lists the commands.\n");
    }
    for (enum after after = SHOW_NOTHING; after != QUIT;) {
        after = answer(&session, person);
        if (after == SHOW_SESSION || after == SHOW_WATCHED) {
            show_session(&session, after == SHOW_WATCHED);
        }
    }
    return fflush(stdout) == 0 && !ferror(stdout) ? EXIT_SUCCESS : EXIT_FAILURE;
}
