/* The signals by which a person ends the kiosk: Ctrl-C, `kill`, a terminal that is closed. */

#ifndef KIOSK_SIGNALS_H
#define KIOSK_SIGNALS_H

#include <signal.h>
#include <stddef.h>
#include <stdint.h>
#include <time.h>

enum { ENDING_SIGNALS = 3, NANOSECONDS = 1000000000, TWICE_SENT = NANOSECONDS / 5 };

static const int ending_signals[ENDING_SIGNALS] = {SIGINT, SIGTERM, SIGHUP};

/* The signal that has come, or 0. The handler only notes it: the frame that is under way is finished, shown and logged. */
static volatile sig_atomic_t ending_signal;

/* The monotonic clock, which nobody sets: a change of the date or to summer time moves no frame. */
static inline int64_t nanoseconds(void)
{
    struct timespec now;
    clock_gettime(CLOCK_MONOTONIC, &now);
    return (int64_t)now.tv_sec * NANOSECONDS + now.tv_nsec;
}

/* Whoever sends a second signal, because the screen takes nothing and the first is not obeyed yet, ends the kiosk at once:
   the frame that can not be shown has no line then. One directly behind the first is none of these, since some senders send
   it twice: the program timeout, and a terminal that is closed, by the system and by the shell. */
static void note_signal(int number)
{
    static int64_t first;
    if (ending_signal == 0) {
        first = nanoseconds();
        ending_signal = number;
    } else if (nanoseconds() - first > TWICE_SENT) {
        signal(number, SIG_DFL);
        raise(number);
    }
}

static inline const char *signal_name(int number)
{
    return number == SIGINT ? "SIGINT" : number == SIGTERM ? "SIGTERM" : "SIGHUP";
}

static inline void catch_signals(void)
{
    /* SA_RESTART: a write that waits for the screen or the log goes on behind the signal, and is not broken off. */
    struct sigaction action = {.sa_handler = note_signal, .sa_flags = SA_RESTART}, before;
    sigemptyset(&action.sa_mask);
    for (size_t i = 0; i < ENDING_SIGNALS; i++) {
        sigaddset(&action.sa_mask, ending_signals[i]);
    }
    for (size_t i = 0; i < ENDING_SIGNALS; i++) {
        /* What the caller has had ignored, as nohup does, stays ignored. */
        if (sigaction(ending_signals[i], NULL, &before) == 0 && before.sa_handler != SIG_IGN) {
            sigaction(ending_signals[i], &action, NULL);
        }
    }
    /* A screen that has gone, or a file that may grow no more, is told by the write that fails; these would end the kiosk
       before it can say so. */
    action.sa_handler = SIG_IGN;
    sigaction(SIGPIPE, &action, NULL);
    sigaction(SIGXFSZ, &action, NULL);
}

#endif
