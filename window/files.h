/* files.h: whole files, read or written in another's place. What cannot be done is answered in words. */
#ifndef FILES_H
#define FILES_H

#include <stddef.h>
#include <stdint.h>

/* The bytes of a file; whoever has them frees them. */
struct contents {
    uint8_t *bytes;
    size_t length;
};

/* Reads a whole file, of any length, into contents that are empty. NULL where it is read, else why not, in words; the
 * contents are to be freed in both cases. */
const char *read_file(const char *name, struct contents *contents);

/* Puts a file of these bytes in the place of the file of this name, or where there is none. NULL where it is done, else
 * why not, in words, and the old file is there as it was. */
const char *replace_file(const char *name, const uint8_t *bytes, size_t length);

#endif
