/* A kiosk: checks an image, runs it frame by frame, shows and logs each frame, and says in plain words how it ended and
   what to do. docs/KIOSK.md explains the calls, the log and the picture.

   kiosk [OPTIONS] IMAGE [LENGTH [FRAMES]]

   IMAGE is a file of 4,096 bytes, the whole local RAM, with the program at its start. LENGTH is how many bytes of it are
   the program; with it the loading check comes first, and a program that it refuses is not run. At most FRAMES frames are
   run, by default 10. The options are

   --log FILE        append a line for each frame there, and keep the machine of a fault in a file beside it
   --name NAME       the image's name in the log, by default IMAGE
   --fps N           frames per second, by default one directly after the other
   --endless         run until the program stops or a person ends it, by Ctrl-C, SIGTERM or SIGHUP
   --frames N        as FRAMES, for an image whose LENGTH is not given
   --steps N         the most steps of a frame, by default 100,000
   --picture ADDRESS:WIDTHxHEIGHT[:byte]
                     draw in each frame so many longs of RAM, or bytes, from an address on
   --gpu COMMAND     how the command gpu is typed, by default gpu
   --explain COMMAND the command that explains why the image was refused or broke off, where nothing is kept of it

   The program ends with 0 if the image stopped itself, used up its frames or was ended by a person, with 1 on a fault, and
   with 2 if there was nothing to run, or if log or screen could not be written. */

#define _POSIX_C_SOURCE 200809L

#include <errno.h>
#include <inttypes.h>
#include <stdbool.h>
#include <stdint.h>
#include <stdio.h>
#include <string.h>
#include <unistd.h>

#include "gpu.h"
#include "kiosk/arguments.h"
#include "kiosk/kept.h"
#include "kiosk/log.h"
#include "kiosk/machine.h"
#include "kiosk/pace.h"
#include "kiosk/picture.h"
#include "kiosk/sentences.h"
#include "kiosk/signals.h"

struct kiosk {
    struct settings given;
    struct machine machine;
    struct log log;
    struct entry last; /* the last frame */
    bool seen;         /* the screen has all that was written to it */
    bool logged;       /* the log has a line of every frame */
};

/* Sends the screen all that was printed, however long it takes, also past a signal. If it can not be written, says why. */
static bool flush_screen(void)
{
    if (fflush(stdout) == 0 && !ferror(stdout)) {
        return true;
    }
    fprintf(stderr, "kiosk: the screen, standard output, can not be written (%s), so nothing more is run\n",
            strerror(errno));
    return false;
}

static void tell_image(const struct kiosk *k)
{
    printf("image %s, checksum %08" PRIX32 "\n", k->log.image, k->log.checksum);
}

static void tell_explanation(const struct kiosk *k)
{
    if (k->given.explain != NULL) {
        printf("To have it explained: %s\n", k->given.explain);
    }
}

/* Says how the run ended. `kept` is the file that a fault was kept in, or empty. The image is named here, since a picture has
   wiped from the terminal what was said of it before. */
static void report(const struct kiosk *k, const char *how, const char *kept)
{
    printf("%s\n", how);
    printf("answer %u after %" PRIu64 " steps, in frame %" PRIu64 "\n", k->last.answer, k->last.total, k->last.frame);
    tell_image(k);
    if (is_in_good_order(k->last.answer) || is_fault(k->last.answer)) {
        show_state(&k->machine);
    }
    if (is_fault(k->last.answer)) {
        printf("Write down all that stands here, for the restorers.\n");
        if (kept[0] != '\0') {
            printf("Memory and registers are kept in a file. To have it explained: %s explain ", k->given.gpu);
            print_quoted(kept);
            printf("\n");
        } else {
            tell_explanation(k);
        }
    }
}

/* All that is painted is read from RAM and block, where this frame's numbers stand and those of no frame before. A frame
   that ended the run is painted too, since the steps before a fault may have changed the picture. */
static void show_frame(const struct kiosk *k, const char *kept)
{
    unsigned answer = k->last.answer;
    if (k->given.picture.width != 0 && (is_in_good_order(answer) || is_fault(answer))) {
        paint(&k->given.picture, k->machine.ram);
    }
    if (is_in_good_order(answer)) {
        printf("frame %" PRIu64 ": %" PRIu64 " steps so far, counter %08" PRIX32 "\n", k->last.frame, k->last.total,
               k->last.counter);
    }
    if (answer != GPU_BUDGET_SPENT) {
        report(k, sentence(answer), kept);
    }
}

/* The line of the last frame. A refused call was no frame, and counts as frame 0. */
static bool log_frame(const struct kiosk *k, const char *kept)
{
    struct entry e = k->last;
    if (is_fault(e.answer)) {
        const char *slash = strrchr(kept, '/');
        return log_line(&k->log, &e, "kept", kept[0] == '\0' ? "none" : slash == NULL ? kept : slash + 1);
    }
    if (!is_in_good_order(e.answer)) {
        e.frame = 0;
    }
    return log_line(&k->log, &e, "", "");
}

/* One frame: the call, the screen, the log, in this order.

   The screen comes before the log: when a line is in the log, what it tells of has been written to the screen, so the
   screen is never older than the log's last line. The log comes before the next call: each call has its line in the log
   before RAM and block are changed again, and between two frames the log lacks nothing. A fault is kept before either, so
   that both can name the file. If the screen fails, the line is written nevertheless, since the call was made. */
static void run_frame(struct kiosk *k)
{
    struct machine *m = &k->machine;
    uint64_t reply = gpu_run(m->ram, m->ram_length, m->block, sizeof m->block, k->given.steps);
    k->last.frame++;
    k->last.answer = gpu_answer(reply);
    k->last.steps = gpu_steps(reply);
    k->last.total += k->last.steps;
    k->last.counter = counter_of(m);

    char kept[KEPT_LIMIT] = "";
    if (is_fault(k->last.answer) && k->log.path != NULL && !keep(m, k->log.path, kept)) {
        kept[0] = '\0';
    }
    show_frame(k, kept);
    k->seen = flush_screen();
    k->logged = log_frame(k, kept);
}

/* The line of a person's end. It tells the last frame once more, with no steps, and is no frame of its own. */
static bool log_end(const struct kiosk *k)
{
    struct entry e = k->last;
    e.steps = 0;
    return log_line(&k->log, &e, "ended", signal_name(ending_signal));
}

/* Runs frame after frame, and gives the status with which to end. The wait stands last, so that nothing of a frame is kept
   back until the next one is due. */
static int run_frames(struct kiosk *k)
{
    struct pace pace = start_pace(k->given.fps);
    do {
        run_frame(k);
    } while (k->seen && k->logged && k->last.answer == GPU_BUDGET_SPENT && k->last.frame < k->given.frames &&
             wait_for_next_frame(&pace));

    if (!k->logged) {
        return 2;
    }
    bool ended = k->last.answer == GPU_BUDGET_SPENT && ending_signal != 0;
    if (k->seen && k->last.answer == GPU_BUDGET_SPENT) {
        report(k, ended ? "A person ended it." : sentence(k->last.answer), "");
        k->seen = flush_screen();
    }
    if (ended) {
        return log_end(k) && k->seen ? 0 : 2;
    }
    if (!k->seen || !(is_in_good_order(k->last.answer) || is_fault(k->last.answer))) {
        return 2;
    }
    return is_fault(k->last.answer) ? 1 : 0;
}

/* Whether the loading check admits the program. If not, says and logs why. */
static bool is_admitted(struct kiosk *k)
{
    uint64_t reply = gpu_check(k->machine.ram, k->machine.ram_length, k->given.code_length);
    struct entry e = {.answer = gpu_answer(reply), .counter = gpu_address(reply)};
    if (e.answer == 0) {
        printf("The program was checked: it runs without a fault and keeps its code.\n");
        return true;
    }
    printf("%s\n", sentence(e.answer));
    printf("answer %u at %08" PRIX32 "\n", e.answer, e.counter);
    tell_image(k);
    tell_explanation(k);
    k->seen = flush_screen();
    log_line(&k->log, &e, "", "");
    return false;
}

static int run(struct kiosk *k)
{
    if (!k->given.checked) {
        printf("The program was not checked. Give its length (--length N, or N behind the image) to have it checked.\n");
    } else if (!is_admitted(k)) {
        return 2;
    }
    put_start_state(&k->machine);
    return run_frames(k);
}

int main(int argc, char **argv)
{
    /* As much as a frame has at most, so that a picture comes to the screen in one piece. */
    static char screen[1 << 16];
    static struct kiosk k = {.seen = true, .logged = true};
    k.given = read_arguments(argc, argv);
    setvbuf(stdout, screen, _IOFBF, sizeof screen);
    catch_signals();
    load_image(&k.machine, k.given.image);
    size_t length = k.machine.ram_length < GPU_RAM_LENGTH ? k.machine.ram_length : GPU_RAM_LENGTH;
    if (!picture_fits(&k.given.picture) ||
        !open_log(&k.log, k.given.log, k.given.name, checksum_of(k.machine.ram, length))) {
        return 2;
    }
    int status = run(&k);
    if (!close_log(&k.log)) {
        status = 2;
    }
    if (!k.seen) {
        /* Without another try to write what could not be written: it might never return. */
        _exit(status);
    }
    return status;
}
