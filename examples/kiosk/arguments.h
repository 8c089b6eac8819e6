/* The command line. */

#ifndef KIOSK_ARGUMENTS_H
#define KIOSK_ARGUMENTS_H

#include <stdbool.h>
#include <stdint.h>
#include <stdio.h>
#include <stdlib.h>
#include <string.h>

#include "gpu.h"
#include "picture.h"

/* The steps of a frame take a small part of its time, and leave the rest for drawing. The default frames together are a
   million steps, as many as the run program's. */
enum { DEFAULT_STEPS = 100000, DEFAULT_FRAMES = 10, MOST_FRAMES = 1000000, MOST_FRAMES_PER_SECOND = 1000 };

struct settings {
    const char *image;
    const char *name;      /* the image's name in the log */
    const char *log;       /* NULL: no log is kept */
    const char *gpu;       /* how the command gpu is typed */
    const char *explain;   /* the command that explains the image's end, or NULL */
    bool checked;          /* the length of the code is given, so the loading check comes first */
    uint64_t code_length;  /* 0 if what is given is no length, which the check refuses */
    uint64_t frames;       /* the most frames that are run */
    uint64_t steps;        /* the most steps of a frame */
    unsigned long fps;     /* frames per second; 0: one directly after the other */
    struct window picture;
};

static const char usage[] =
    "usage: kiosk [--name NAME] [--log FILE] [--fps N] [--endless | --frames N] [--steps N]\n"
    "             [--picture ADDRESS:WIDTHxHEIGHT[:byte]] [--gpu COMMAND] [--explain COMMAND]\n"
    "             IMAGE [LENGTH [FRAMES]]\n";

/* Ends the program with a sentence about a wrong word of the command line. */
_Noreturn static inline void refuse(const char *option, const char *word, const char *what)
{
    fprintf(stderr, "kiosk: %s%s%s: %s\n%s", option, option[0] != '\0' && word[0] != '\0' ? " " : "", word, what, usage);
    exit(2);
}

/* Gives a number from 1 to `most`, or 0 if the text is none. */
static inline unsigned long number_from(const char *text, unsigned long most)
{
    if (text[0] == '\0' || text[strspn(text, "0123456789")] != '\0') {
        return 0;
    }
    unsigned long number = strtoul(text, NULL, 10);
    return number > most ? 0 : number;
}

/* The same, of which a wrong one is refused. `option` may be empty. */
static inline unsigned long number_of(const char *option, const char *word, unsigned long most)
{
    char what[64];
    unsigned long number = number_from(word, most);
    if (number == 0) {
        snprintf(what, sizeof what, "give a number from 1 to %lu", most);
        refuse(option, word, what);
    }
    return number;
}

/* Takes an option that has a word behind it. */
static inline void take_option(struct settings *given, const char *option, const char *word)
{
    static const char *const known[] = {"--name", "--log", "--fps", "--frames", "--steps", "--gpu", "--explain", "--picture"};
    size_t i = 0, count = sizeof known / sizeof known[0];
    while (i < count && strcmp(option, known[i]) != 0) {
        i++;
    }
    if (i == count) {
        refuse(option, "", "there is no such option");
    }
    if (word == NULL) {
        refuse(option, "", "the word behind it is missing");
    }
    switch (i) {
    case 0:
        given->name = word;
        break;
    case 1:
        if (word[0] == '\0' || strncmp(word, "--", 2) == 0) {
            refuse(option, word, "the name of the file is missing");
        }
        given->log = word;
        break;
    case 2:
        given->fps = number_of(option, word, MOST_FRAMES_PER_SECOND);
        break;
    case 3:
        given->frames = number_of(option, word, MOST_FRAMES);
        break;
    case 4:
        given->steps = number_of(option, word, GPU_BUDGET_LIMIT);
        break;
    case 5:
        given->gpu = word;
        break;
    case 6:
        given->explain = word;
        break;
    default: {
        const char *wrong = read_window(&given->picture, word);
        if (wrong != NULL) {
            refuse(option, word, wrong);
        }
    }
    }
}

/* Takes IMAGE [LENGTH [FRAMES]]. */
static inline void take_words(struct settings *given, char **words)
{
    size_t count = 0;
    while (words[count] != NULL) {
        if (count > 0 && strncmp(words[count], "--", 2) == 0) {
            refuse("", words[count], "options stand before the image");
        }
        count++;
    }
    if (count == 0) {
        refuse("IMAGE", "", "no image is named");
    }
    if (count > 3) {
        refuse("", words[3], "this is a word too many");
    }
    given->image = words[0];
    if (given->name == NULL) {
        given->name = words[0];
    }
    if (count > 1) {
        given->checked = true;
        given->code_length = number_from(words[1], GPU_RAM_LENGTH);
    }
    if (count > 2) {
        if (given->frames != 0) {
            refuse("", words[2], "the number of frames was given by --frames already");
        }
        given->frames = number_of("FRAMES", words[2], MOST_FRAMES);
    }
}

/* The settings that the command line names. Ends the program where a word is wrong. */
static inline struct settings read_arguments(int count, char **words)
{
    struct settings given = {.steps = DEFAULT_STEPS, .gpu = "gpu"};
    bool endless = false;
    for (words += count > 0; *words != NULL && strncmp(*words, "--", 2) == 0; words++) {
        if (strcmp(*words, "--help") == 0) {
            fputs(usage, stdout);
            exit(0);
        }
        if (strcmp(*words, "--endless") == 0) {
            endless = true;
        } else {
            take_option(&given, words[0], words[1]);
            words++;
        }
    }
    take_words(&given, words);
    if (endless && given.frames != 0) {
        refuse("--endless", "", "a number of frames was given too: leave out one of the two");
    }
    if (given.frames == 0) {
        given.frames = endless ? UINT64_MAX : DEFAULT_FRAMES;
    }
    return given;
}

#endif
