/* Times gpu_check on a program that obeys the rules, from 64 bytes of code to 4,096, and prints the time per byte, which
   stays the same if the check is linear. Then on other programs of 4,096 bytes that give it much to do: the most accesses,
   the most jumps, and one that is refused at its very end.

   check [--limit MICROSECONDS]: ends with 1 if a program of 4,096 bytes takes longer */

#define _POSIX_C_SOURCE 199309L

#include <inttypes.h>
#include <stdio.h>
#include <stdlib.h>
#include <string.h>
#include <time.h>

#include "gpu.h"

enum { LEAST = 64, ROUNDS = 41, BYTES_PER_ROUND = 1 << 20 };

static uint8_t ram[GPU_RAM_LENGTH];
static size_t end;

static void emit(unsigned word)
{
    ram[end++] = (uint8_t)(word >> 8);
    ram[end++] = (uint8_t)word;
}

static void emit_op(unsigned opcode, unsigned source, unsigned destination)
{
    emit(opcode * 1024 + source * 32 + destination);
}

/* Sixteen words, with every kind of instruction that a rule looks at; jumps go to the block's own start. */
static void emit_block(void)
{
    unsigned start = GPU_RAM_BASE + (unsigned)end;
    emit_op(38, 0, 1); /* MOVEI #F02114h,R1 */
    emit(0x2114);
    emit(0x00F0);
    emit_op(41, 1, 2); /* LOAD (R1),R2 */
    emit_op(2, 4, 3);  /* ADDQ #4,R3 */
    emit_op(9, 3, 4);  /* AND R3,R4 */
    emit_op(53, 25, 2); /* JR to the start, if Z is set */
    emit_op(57, 0, 0); /* NOP */
    emit_op(38, 0, 5); /* MOVEI #start,R5 */
    emit(start & 0xFFFF);
    emit(start >> 16);
    emit_op(52, 5, 1); /* JUMP (R5), if Z is clear */
    emit_op(34, 2, 6); /* MOVE R2,R6 */
    emit_op(24, 2, 6); /* SHLQ #2,R6 */
    emit_op(53, 17, 0); /* JR to the start */
    emit_op(57, 0, 0);
}

static double seconds(void)
{
    struct timespec now;
    clock_gettime(CLOCK_MONOTONIC, &now);
    return (double)now.tv_sec + 1e-9 * (double)now.tv_nsec;
}

static int by_size(const void *a, const void *b)
{
    double x = *(const double *)a, y = *(const double *)b;
    return (x > y) - (x < y);
}

/* The median time of a check that gives an answer, in microseconds. */
static double timed(uint64_t length, unsigned answer)
{
    static double times[ROUNDS];
    unsigned calls = BYTES_PER_ROUND / (unsigned)length;
    for (unsigned round = 0; round < ROUNDS; round++) {
        double from = seconds();
        for (unsigned n = 0; n < calls; n++) {
            uint64_t reply = gpu_check(ram, sizeof ram, length);
            if (gpu_answer(reply) != answer) {
                fprintf(stderr, "check: answer %u at %06" PRIX32 ", not %u\n", gpu_answer(reply), gpu_address(reply), answer);
                exit(1);
            }
        }
        times[round] = (seconds() - from) / calls * 1e6;
    }
    qsort(times, ROUNDS, sizeof times[0], by_size);
    return times[ROUNDS / 2];
}

static double timed_line(const char *name, uint64_t length, unsigned answer)
{
    double time = timed(length, answer);
    printf("%-9s %6" PRIu64 " %6u %10.2f %10.2f\n", name, length, answer, time, 1e3 * time / (double)length);
    fflush(stdout);
    return time;
}

static double larger(double a, double b)
{
    return a > b ? a : b;
}

static void fill_mixed(void)
{
    end = 0;
    while (end < sizeof ram) {
        emit_block();
    }
}

/* As many instructions as there can be, each of which sums two ranges. */
static void fill_accesses(void)
{
    end = 0;
    emit_op(38, 0, 14); /* MOVEI #F03000h,R14 */
    emit(0x3000);
    emit(0x00F0);
    emit_op(35, 8, 3); /* MOVEQ #8,R3 */
    while (end < sizeof ram - 4) {
        emit_op(58, 3, 2); /* LOAD (R14+R3),R2 */
    }
    emit_op(53, 31, 0); /* JR to itself */
    emit_op(57, 0, 0);
}

/* As many jumps as there can be, each to itself. */
static void fill_jumps(void)
{
    end = 0;
    while (end < sizeof ram) {
        emit_op(53, 31, 0);
        emit_op(57, 0, 0);
    }
}

int main(int argc, char **argv)
{
    double limit = argc == 3 && strcmp(argv[1], "--limit") == 0 ? strtod(argv[2], NULL) : 0;
    double longest = 0;
    printf("the loading check: program, bytes of code, answer, microseconds, nanoseconds per byte\n");
    fflush(stdout);
    fill_mixed();
    for (uint64_t length = LEAST; length <= GPU_RAM_LENGTH; length *= 2) {
        longest = timed_line("mixed", length, 0);
    }
    fill_accesses();
    longest = larger(longest, timed_line("accesses", GPU_RAM_LENGTH, 0));
    fill_jumps();
    longest = larger(longest, timed_line("jumps", GPU_RAM_LENGTH, 0));
    end -= 4;
    emit_op(53, 31, 2); /* the last jump with a condition */
    longest = larger(longest, timed_line("refused", GPU_RAM_LENGTH, GPU_RULE_5));
    return limit > 0 && longest > limit;
}
