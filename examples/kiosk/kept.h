/* The file that keeps the machine of a fault: RAM, then the block. `gpu show` and `gpu explain` read it. */

#ifndef KIOSK_KEPT_H
#define KIOSK_KEPT_H

#include <errno.h>
#include <fcntl.h>
#include <limits.h>
#include <stdbool.h>
#include <stdio.h>
#include <string.h>
#include <time.h>
#include <unistd.h>

#include "machine.h"
#include "writing.h"

/* Room for the log's name and what is put behind it. */
enum { KEPT_LIMIT = PATH_MAX + 64, MOST_IN_A_SECOND = 1000 };

/* Creates LOG.YYYYMMDD-HHMMSS.saved, with -2, -3 and so on behind the time where there is such a file already: what was
   kept of an earlier fault is never overwritten. Gives the file, or -1, and its name. */
static inline int create_kept(const char *log, char path[KEPT_LIMIT])
{
    time_t now = time(NULL);
    struct tm local;
    char moment[32];
    localtime_r(&now, &local);
    strftime(moment, sizeof moment, "%Y%m%d-%H%M%S", &local);
    int file = -1;
    for (int i = 1; file < 0 && i <= MOST_IN_A_SECOND; i++) {
        char more[16] = "";
        if (i > 1) {
            snprintf(more, sizeof more, "-%d", i);
        }
        snprintf(path, KEPT_LIMIT, "%s.%s%s.saved", log, moment, more);
        file = open(path, O_WRONLY | O_CREAT | O_EXCL | O_CLOEXEC, 0666);
        if (file < 0 && errno != EEXIST) {
            break;
        }
    }
    return file;
}

/* Prints a file's name as a shell takes it for one word. */
static inline void print_quoted(const char *path)
{
    static const char plain[] = "ABCDEFGHIJKLMNOPQRSTUVWXYZabcdefghijklmnopqrstuvwxyz0123456789./_-+,";
    if (path[strspn(path, plain)] == '\0') {
        fputs(path, stdout);
        return;
    }
    putchar('\'');
    for (; *path != '\0'; path++) {
        if (*path == '\'') {
            fputs("'\\''", stdout);
        } else {
            putchar(*path);
        }
    }
    putchar('\'');
}

/* Keeps RAM and then the block in a new file beside the log, and gives its name. If that can not be done, says so, leaves
   no part of a file, and gives false. */
static inline bool keep(const struct machine *m, const char *log, char path[KEPT_LIMIT])
{
    int file = create_kept(log, path);
    bool kept = file >= 0 && write_all(file, m->ram, GPU_RAM_LENGTH) && write_all(file, m->block, sizeof m->block) &&
                fsync(file) == 0;
    int reason = errno;
    if (file >= 0 && close(file) != 0 && kept) {
        reason = errno;
        kept = false;
    }
    if (!kept) {
        fflush(stdout);
        fprintf(stderr, "kiosk: RAM and block could not be kept in %s (%s): write down all that stands on the screen\n",
                path, strerror(reason));
        if (file >= 0) {
            unlink(path);
        }
    }
    return kept;
}

#endif
