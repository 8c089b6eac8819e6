/* Pacing: when the next frame begins. */

#ifndef KIOSK_PACE_H
#define KIOSK_PACE_H

#include <stdbool.h>
#include <stdint.h>
#include <sys/select.h>
#include <time.h>

#include "signals.h"

/* In nanoseconds. Frames are not paced where the period is 0. */
struct pace {
    int64_t period;
    int64_t due; /* when the next frame begins */
};

static inline struct pace start_pace(unsigned long frames_per_second)
{
    struct pace p = {0, nanoseconds()};
    if (frames_per_second != 0) {
        p.period = NANOSECONDS / (int64_t)frames_per_second;
    }
    return p;
}

/* Returns at that time, or at once if a signal has come or comes. The signals are let through only inside pselect, so that
   none can come between the look at `ending_signal` and the sleep, and be slept through. */
static inline void wait_until(int64_t due)
{
    sigset_t ending, before;
    sigemptyset(&ending);
    for (size_t i = 0; i < ENDING_SIGNALS; i++) {
        sigaddset(&ending, ending_signals[i]);
    }
    sigprocmask(SIG_BLOCK, &ending, &before);
    int64_t left;
    while (ending_signal == 0 && (left = due - nanoseconds()) > 0) {
        struct timespec rest = {(time_t)(left / NANOSECONDS), (long)(left % NANOSECONDS)};
        pselect(0, NULL, NULL, NULL, &rest, &before);
    }
    sigprocmask(SIG_SETMASK, &before, NULL);
}

/* Waits until the next frame is due; false if a person has ended the run. The times at which frames are due are a period
   apart, however long a frame took, so that small delays do not add up. A frame that is due already begins at once, and the
   next one a period after it: frames that were missed are not made up for. */
static inline bool wait_for_next_frame(struct pace *p)
{
    if (p->period != 0) {
        int64_t now = nanoseconds();
        p->due += p->period;
        if (p->due < now) {
            p->due = now;
        }
        wait_until(p->due);
    }
    return ending_signal == 0;
}

#endif
