/* The firing log: a line for each frame, appended to a file. docs/KIOSK.md has its fields. */

#ifndef KIOSK_LOG_H
#define KIOSK_LOG_H

#include <ctype.h>
#include <errno.h>
#include <fcntl.h>
#include <inttypes.h>
#include <limits.h>
#include <stdbool.h>
#include <stdio.h>
#include <string.h>
#include <sys/stat.h>
#include <time.h>
#include <unistd.h>

#include "gpu.h"
#include "writing.h"

enum { LINE_LIMIT = 2 * PATH_MAX + 512 };

struct log {
    const char *path; /* NULL: no log is kept */
    int file;
    char image[PATH_MAX]; /* the image's name, without control characters */
    uint32_t checksum;    /* of the image as it was before the first call */
};

/* What a line tells, but for the date and the image. */
struct entry {
    uint64_t frame;
    unsigned answer;
    uint64_t steps, total; /* of this frame, and of the run so far */
    uint32_t counter;
};

/* CRC-32 as zip and PNG have it. */
static inline uint32_t checksum_of(const uint8_t *bytes, size_t length)
{
    uint32_t sum = 0xFFFFFFFF;
    for (size_t i = 0; i < length; i++) {
        sum ^= bytes[i];
        for (int bit = 0; bit < 8; bit++) {
            sum = sum >> 1 ^ (sum & 1 ? 0xEDB88320 : 0);
        }
    }
    return ~sum;
}

/* Copies a name, of which a tab or a line feed would break the line that it stands in. */
static inline void copy_name(char *to, size_t size, const char *name)
{
    size_t i = 0;
    for (; name[i] != '\0' && i + 1 < size; i++) {
        to[i] = iscntrl((unsigned char)name[i]) ? '?' : name[i];
    }
    to[i] = '\0';
}

/* Whether the first bytes of a file are those of a log, whose first line begins with a date or was cut off in it. So an
   image that is named by mistake is not written into. */
static inline bool begins_as_log(const char *bytes, size_t length)
{
    static const char form[] = "0000-00-00T";
    for (size_t i = 0; i < length && form[i] != '\0' && (i == 0 || bytes[i] != '\n'); i++) {
        if (form[i] == '0' ? !isdigit((unsigned char)bytes[i]) : bytes[i] != form[i]) {
            return false;
        }
    }
    return true;
}

static inline bool log_failed(const struct log *log)
{
    fprintf(stderr,
            "kiosk: the log %s can not be written (%s), so nothing more is run: make room on the disk, or name another "
            "file by --log\n",
            log->path, strerror(errno));
    return false;
}

/* Looks at a file that has something in it already. If the last line was cut off, as by a failure of the power, it is ended
   here, so that it spoils no other. Gives false if the file is no log or can not be used, which is said. */
static inline bool go_on_with(struct log *log, off_t length)
{
    char first[16], last;
    int file = open(log->path, O_RDONLY | O_CLOEXEC);
    ssize_t count = file < 0 ? -1 : pread(file, first, sizeof first, 0);
    bool read = count > 0 && pread(file, &last, 1, length - 1) == 1;
    int reason = errno;
    if (file >= 0) {
        close(file);
    }
    if (!read) {
        fprintf(stderr, "kiosk: the log %s can not be read (%s): name another file by --log\n", log->path, strerror(reason));
        return false;
    }
    if (!begins_as_log(first, (size_t)count)) {
        fprintf(stderr, "kiosk: %s is no firing log, and was left as it is: name another file by --log\n", log->path);
        return false;
    }
    return last == '\n' || write_all(log->file, "\n", 1) || log_failed(log);
}

/* Opens the log at `path`, which may be NULL, for lines about an image. If it can not be used, says so and gives false. */
static inline bool open_log(struct log *log, const char *path, const char *image, uint32_t checksum)
{
    log->path = path;
    log->checksum = checksum;
    copy_name(log->image, sizeof log->image, image);
    if (path == NULL) {
        return true;
    }
    tzset();
    int file = open(path, O_WRONLY | O_APPEND | O_CREAT | O_CLOEXEC | O_NOCTTY, 0666);
    /* A program may be started without a standard output or error: what is written there must not come into the log. */
    log->file = file < 0 ? -1 : fcntl(file, F_DUPFD_CLOEXEC, STDERR_FILENO + 1);
    if (log->file < 0) {
        fprintf(stderr,
                "kiosk: the log %s can not be opened (%s): see that its folder is there and may be written to, or name "
                "another file by --log\n",
                path, strerror(errno));
        return false;
    }
    close(file);
    struct stat about;
    return fstat(log->file, &about) != 0 || !S_ISREG(about.st_mode) || about.st_size == 0 || go_on_with(log, about.st_size);
}

/* Appends a line. There is no buffer that would have to be flushed: when this returns, every other program sees the line.
   `key` and `value` are the last field, or empty. If it can not be written, says so and gives false. */
static inline bool log_line(const struct log *log, const struct entry *e, const char *key, const char *value)
{
    if (log->path == NULL) {
        return true;
    }
    struct timespec now;
    struct tm local;
    char moment[32], zone[8], last[PATH_MAX], line[LINE_LIMIT];
    clock_gettime(CLOCK_REALTIME, &now);
    localtime_r(&now.tv_sec, &local);
    strftime(moment, sizeof moment, "%Y-%m-%dT%H:%M:%S", &local);
    strftime(zone, sizeof zone, "%z", &local); /* as +0100 */
    copy_name(last, sizeof last, value);
    int length = snprintf(line, sizeof line,
                          "%s.%03ld%.3s:%s\timage=%s\tcrc32=%08" PRIX32 "\tversion=" GPU_VERSION "\tframe=%" PRIu64
                          "\tanswer=%u\tsteps=%" PRIu64 "\ttotal=%" PRIu64 "\tcounter=%08" PRIX32 "%s%s%s%s\n",
                          moment, now.tv_nsec / 1000000, zone, zone + 3, log->image, log->checksum, e->frame, e->answer,
                          e->steps, e->total, e->counter, key[0] == '\0' ? "" : "\t", key, key[0] == '\0' ? "" : "=", last);
    return write_all(log->file, line, (size_t)length) || log_failed(log);
}

/* Has the disk write what it has not written yet, since a kiosk that has ended is often switched off. */
static inline bool close_log(const struct log *log)
{
    if (log->path == NULL) {
        return true;
    }
    /* EINVAL: what is no file on a disk, as a pipe, need not be written. */
    bool written = fsync(log->file) == 0 || errno == EINVAL || errno == EROFS;
    return (close(log->file) == 0 && written) || log_failed(log);
}

#endif
