/* Writing to a file by the calls of the system, without a buffer between. */

#ifndef KIOSK_WRITING_H
#define KIOSK_WRITING_H

#include <errno.h>
#include <stdbool.h>
#include <stddef.h>
#include <unistd.h>

/* Writes all the bytes. A call may be cut short, as by a signal, and then the rest follows. */
static inline bool write_all(int file, const void *bytes, size_t length)
{
    const char *next = bytes;
    while (length > 0) {
        ssize_t written = write(file, next, length);
        if (written < 0 && errno != EINTR) {
            return false;
        }
        if (written > 0) {
            next += written;
            length -= (size_t)written;
        }
    }
    return true;
}

#endif
