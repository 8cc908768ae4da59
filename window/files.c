/* files.c: whole files, read or written in another's place. What cannot be done is answered in words. */
#define _XOPEN_SOURCE 700

#include <errno.h>
#include <fcntl.h>
#include <stdio.h>
#include <stdlib.h>
#include <string.h>
#include <sys/stat.h>
#include <unistd.h>

#include "files.h"

/* Why the system refused a call, in words. */
static const char *system_words(void)
{
    return strerror(errno);
}

/* NULL for a regular file, else what it is: a folder, or a device and the like, which may have no end. */
static const char *other_kind(const struct stat *status)
{
    if (S_ISREG(status->st_mode)) {
        return NULL;
    }
    return S_ISDIR(status->st_mode) ? strerror(EISDIR) : "Not a regular file";
}

/* ---- Reading. */

/* Reads to the end. The room is for one byte more than the file is said to have, and doubled where it has more. */
static const char *read_all(int file, size_t said, struct contents *contents)
{
    size_t room = 0;
    for (;;) {
        if (contents->length == room) {
            room = room == 0 ? said + 1 : 2 * room;
            uint8_t *bytes = realloc(contents->bytes, room);
            if (bytes == NULL) {
                return system_words();
            }
            contents->bytes = bytes;
        }
        ssize_t count = read(file, contents->bytes + contents->length, room - contents->length);
        if (count == 0) {
            return NULL;
        }
        if (count > 0) {
            contents->length += (size_t)count;
        } else if (errno != EINTR) {
            return system_words();
        }
    }
}

/* Opens a file without waiting for what might be written to it, and reads it where it is a regular one. */
const char *read_file(const char *name, struct contents *contents)
{
    struct stat status;
    int file = open(name, O_RDONLY | O_NONBLOCK);
    if (file < 0) {
        return system_words();
    }
    const char *fault = fstat(file, &status) == 0 ? other_kind(&status) : system_words();
    if (fault == NULL) {
        fault = read_all(file, (size_t)status.st_size, contents);
    }
    close(file);
    return fault;
}

/* ---- Writing. */

/* Where a file of this name is or will be, links followed, to be freed; the permissions that it has or will have. NULL
 * where nothing can be written, and why, in words. */
static char *find_place(const char *name, mode_t *mode, const char **fault)
{
    struct stat status;
    char *place = NULL;
    if (stat(name, &status) == 0) {
        *mode = status.st_mode & 0777;
        *fault = other_kind(&status);
        if (*fault != NULL) {
            return NULL;
        }
        place = access(name, W_OK) == 0 ? realpath(name, NULL) : NULL;
    } else if (errno == ENOENT) {
        mode_t mask = umask(0);
        umask(mask);
        *mode = 0666 & ~mask;
        place = strdup(name);
    }
    if (place == NULL) {
        *fault = system_words();
    }
    return place;
}

/* The name of a new file in the folder of a place, with what mkstemp makes a name of its own; to be freed. */
static char *new_name(const char *place)
{
    const char *slash = strrchr(place, '/');
    size_t folder = slash == NULL ? 0 : (size_t)(slash - place) + 1;
    static const char ending[] = "zembrusha-XXXXXX";
    char *name = malloc(folder + sizeof ending);
    if (name != NULL) {
        memcpy(name, place, folder);
        memcpy(name + folder, ending, sizeof ending);
    }
    return name;
}

/* Writes all bytes and sees to it that they are on the disk. */
static const char *write_all(int file, mode_t mode, const uint8_t *bytes, size_t length)
{
    while (length > 0) {
        ssize_t count = write(file, bytes, length);
        if (count >= 0) {
            bytes += count;
            length -= (size_t)count;
        } else if (errno != EINTR) {
            return system_words();
        }
    }
    return fchmod(file, mode) == 0 && fsync(file) == 0 ? NULL : system_words();
}

/* A new file is written whole, in the same folder, and only then takes the place: until then the old one is there, and
 * what does not succeed leaves no new one. */
static const char *replace_at(const char *place, mode_t mode, const uint8_t *bytes, size_t length)
{
    char *name = new_name(place);
    int file = name == NULL ? -1 : mkstemp(name);
    const char *fault = NULL;
    if (file < 0) {
        fault = system_words();
    } else {
        fault = write_all(file, mode, bytes, length);
        if (close(file) != 0 && fault == NULL) {
            fault = system_words();
        }
        if (fault == NULL && rename(name, place) != 0) {
            fault = system_words();
        }
        if (fault != NULL) {
            unlink(name);
        }
    }
    free(name);
    return fault;
}

const char *replace_file(const char *name, const uint8_t *bytes, size_t length)
{
    const char *fault = NULL;
    mode_t mode = 0;
    char *place = find_place(name, &mode, &fault);
    if (place != NULL) {
        fault = replace_at(place, mode, bytes, length);
    }
    free(place);
    return fault;
}
