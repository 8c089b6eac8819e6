/* A window of RAM as a picture in the terminal's block characters, two to a pixel, so that a pixel is about square. */

#ifndef KIOSK_PICTURE_H
#define KIOSK_PICTURE_H

#include <stdbool.h>
#include <stdint.h>
#include <stdio.h>
#include <stdlib.h>
#include <string.h>
#include <sys/ioctl.h>
#include <unistd.h>

#include "gpu.h"

struct window {
    uint64_t offset, width, height; /* the first byte in RAM; pixels. No picture is drawn where the width is 0. */
    bool bytes;                     /* a pixel is a byte, else a long */
};

/* Reads ADDRESS:WIDTHxHEIGHT, with or without `:byte` behind it and 0x or $ before it. Gives NULL, or what is wrong with the
   text. tools/kiosk.py has the same rules and sentences, and tests/kiosk_log.py holds the two together. */
static inline const char *read_window(struct window *w, const char *text)
{
    char address[9], width[9], by[2], height[9];
    int length = 0;
    text += text[0] == '$' ? 1 : strncmp(text, "0x", 2) == 0 || strncmp(text, "0X", 2) == 0 ? 2 : 0;
    if (sscanf(text, "%8[0-9A-Fa-f]:%8[0-9]%1[xX]%8[0-9]%n", address, width, by, height, &length) != 4 ||
        (text[length] != '\0' && strcmp(text + length, ":byte") != 0)) {
        return "write ADDRESS:WIDTHxHEIGHT, as F03800:16x1, or F03800:16x1:byte where a pixel is a byte";
    }
    uint64_t first = strtoull(address, NULL, 16);
    w->width = strtoull(width, NULL, 10);
    w->height = strtoull(height, NULL, 10);
    w->bytes = text[length] != '\0';
    uint64_t size = w->width * w->height * (w->bytes ? 1 : 4);
    if (size == 0) {
        return "the width and the height must be 1 or more";
    }
    if (first < GPU_RAM_BASE || first + size > GPU_RAM_BASE + GPU_RAM_LENGTH) {
        return "the picture is not wholly in RAM, F03000 to F03FFF";
    }
    if (!w->bytes && first % 4 != 0) {
        return "a picture of longs must begin at a multiple of 4; for a picture of bytes put :byte behind it";
    }
    w->offset = first - GPU_RAM_BASE;
    return NULL;
}

/* Whether the picture fits where it is to be seen; if not, says so. On a terminal that is too small its lines would be
   broken, or its top would be lost. It needs a column more, since a line that is cleared behind its last column may lose
   that one, a line for the text of the frame, and one for the cursor. */
static inline bool picture_fits(const struct window *w)
{
    struct winsize size;
    if (w->width == 0 || ioctl(STDOUT_FILENO, TIOCGWINSZ, &size) != 0 || size.ws_col == 0 || size.ws_row == 0) {
        return true;
    }
    if (2 * w->width + 1 <= size.ws_col && w->height + 2 <= size.ws_row) {
        return true;
    }
    fprintf(stderr,
            "kiosk: the picture needs %u columns and %u lines, and the terminal has %u and %u: make the window larger or "
            "its letters smaller, or the picture smaller\n",
            (unsigned)(2 * w->width + 1), (unsigned)(w->height + 2), size.ws_col, size.ws_row);
    return false;
}

/* Writes the picture of what RAM holds now, a row to a line. On a terminal it goes over the one before: the cursor goes to
   the first place, each line is cleared behind its row, and the rest of the screen behind the last. */
static inline void paint(const struct window *w, const uint8_t *ram)
{
    static const char *const shades[] = {"  ", "░░", "▒▒", "▓▓", "██"};
    bool over = isatty(STDOUT_FILENO);
    fputs(over ? "\033[H" : "", stdout);
    for (uint64_t row = 0; row < w->height; row++) {
        for (uint64_t column = 0; column < w->width; column++) {
            uint64_t pixel = row * w->width + column;
            uint32_t value = w->bytes ? ram[w->offset + pixel] : gpu_long(ram, w->offset + 4 * pixel);
            fputs(shades[(value > 255 ? 255 : value) * 5 / 256], stdout);
        }
        fputs(over ? "\033[K\n" : "\n", stdout);
    }
    fputs(over ? "\033[J" : "", stdout);
}

#endif
