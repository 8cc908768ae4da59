/* failing.c: calls of the system that fail as they are told to. Linked with --wrap for each of them, they stand between
 * the window and the system. FAIL names the one that fails, with the errno FAIL_NUMBER; a write does so after its first
 * byte. Where FAIL is "slow", none fails, but reads and writes are interrupted and short again and again. */
#define _XOPEN_SOURCE 700

#include <errno.h>
#include <stdbool.h>
#include <stdio.h>
#include <stdlib.h>
#include <string.h>
#include <sys/stat.h>
#include <unistd.h>

/* Whether FAIL is this. */
static bool told(const char *name)
{
    const char *failing = getenv("FAIL");
    return failing != NULL && strcmp(failing, name) == 0;
}

/* Whether the call of this name fails now. */
static bool fails(const char *name)
{
    if (told(name)) {
        errno = atoi(getenv("FAIL_NUMBER"));
        return true;
    }
    return false;
}

/* The call of a name that fails by a given answer, or else is the system's. */
#define FAILING(kind, name, parameters, arguments, answer)                \
    kind __real_##name parameters;                                        \
    kind __wrap_##name parameters;                                        \
    kind __wrap_##name parameters                                         \
    {                                                                     \
        return fails(#name) ? (answer) : __real_##name arguments;         \
    }

FAILING(void *, malloc, (size_t size), (size), NULL)
FAILING(void *, realloc, (void *old, size_t size), (old, size), NULL)
FAILING(int, fstat, (int file, struct stat *status), (file, status), -1)
FAILING(int, mkstemp, (char *name), (name), -1)
FAILING(int, fchmod, (int file, mode_t mode), (file, mode), -1)
FAILING(int, fsync, (int file), (file), -1)
FAILING(int, rename, (const char *old, const char *new), (old, new), -1)
FAILING(char *, realpath, (const char *name, char *place), (name, place), NULL)

/* A file is closed even where it is said that something was lost. */
int __real_close(int file);
int __wrap_close(int file);
int __wrap_close(int file)
{
    int answer = __real_close(file);
    return fails("close") ? -1 : answer;
}

/* Every second call is interrupted; the others take three bytes at most. */
static size_t slowed(size_t count)
{
    static unsigned calls;
    if (calls++ % 2 == 0) {
        errno = EINTR;
        return 0;
    }
    return count < 3 ? count : 3;
}

ssize_t __real_read(int file, void *bytes, size_t count);
ssize_t __wrap_read(int file, void *bytes, size_t count);
ssize_t __wrap_read(int file, void *bytes, size_t count)
{
    if (fails("read")) {
        return -1;
    }
    size_t most = told("slow") ? slowed(count) : count;
    return most == 0 ? -1 : __real_read(file, bytes, most);
}

ssize_t __real_write(int file, const void *bytes, size_t count);
ssize_t __wrap_write(int file, const void *bytes, size_t count);
ssize_t __wrap_write(int file, const void *bytes, size_t count)
{
    static bool begun;
    if (told("write") && !begun) {
        begun = true;
        return __real_write(file, bytes, 1);
    }
    if (fails("write")) {
        return -1;
    }
    size_t most = told("slow") ? slowed(count) : count;
    return most == 0 ? -1 : __real_write(file, bytes, most);
}
