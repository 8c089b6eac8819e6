/* Times gpu_run against a plain C interpreter of the same machine, and shows that a long series of calls grows nothing.

   bench [--pairs N] [--calls N] [--limit R] [--once LOOP]
     --pairs N   pairs of calls for each loop, at least 15; by default 31
     --calls N   calls in the series, at least 200; by default 1000
     --limit R   ends with 1 if the worst median ratio is above R, or if the series took more and more memory
     --once LOOP calls both once on one loop, 0 to 3, and times nothing: for a tool that counts instructions

   The two run in one process in pairs of calls, in swapped order each time, and the ratio is taken within a pair: a
   machine that changes its speed changes both. */

#define _DEFAULT_SOURCE

#include <inttypes.h>
#include <stdio.h>
#include <stdlib.h>
#include <string.h>
#include <sys/resource.h>
#include <time.h>

#include "gpu.h"
#include "interpreter.h"

#ifdef WITHOUT_ARCHIVE
#include "reference.h"
#define MEASURED reference_run
#define MEASURED_NAME "reference_run"
#else
#define MEASURED gpu_run
#define MEASURED_NAME "gpu_run"
#endif

typedef uint64_t run_function(uint8_t *ram, size_t ram_len, uint8_t *block, size_t block_len, uint64_t budget);

/* Images. A loop never ends, so that a call spends its whole budget. */

struct image {
    uint8_t ram[GPU_RAM_LENGTH];
    size_t end;
};

/* The opcodes of source document 001, section 5.0, that the loops use. */
enum {
    ADD = 0,
    ADDC = 1,
    ADDQ = 2,
    ADDQT = 3,
    SUB = 4,
    SUBQ = 6,
    AND = 9,
    OR = 10,
    XOR = 11,
    NOT = 12,
    BTST = 13,
    BSET = 14,
    MULT = 16,
    IMULT = 17,
    IMULTN = 18,
    RESMAC = 19,
    IMACN = 20,
    DIV = 21,
    ABS = 22,
    SH = 23,
    SHLQ = 24,
    SHRQ = 25,
    SHARQ = 27,
    ROR = 28,
    CMP = 30,
    CMPQ = 31,
    SAT8 = 32,
    SAT16 = 33,
    MOVE = 34,
    MOVEQ = 35,
    MOVETA = 36,
    MOVEFA = 37,
    MOVEI = 38,
    LOAD = 41,
    LOAD_R14_QUICK = 43,
    LOAD_R15_QUICK = 44,
    STORE = 47,
    STORE_R14_QUICK = 49,
    STORE_R15_QUICK = 50,
    JUMP = 52,
    JR = 53,
    NORMI = 56,
    LOAD_R14_REGISTER = 58,
    STORE_R15_REGISTER = 61
};

static void put(struct image *i, uint32_t word)
{
    i->ram[i->end++] = (uint8_t)(word / 256);
    i->ram[i->end++] = (uint8_t)word;
}

static void emit(struct image *i, uint32_t opcode, uint32_t source, uint32_t destination)
{
    put(i, opcode * 1024 + source * 32 + destination);
}

static void emit_movei(struct image *i, uint32_t value, uint32_t destination)
{
    emit(i, MOVEI, 0, destination);
    put(i, value % 65536);
    put(i, value / 65536);
}

static void emit_jr(struct image *i, uint32_t condition, size_t target)
{
    emit(i, JR, (uint32_t)((target - i->end - 2) / 2) & 31, condition);
}

static uint32_t here(const struct image *i)
{
    return GPU_RAM_BASE + (uint32_t)i->end;
}

/* Sums, logic, shifts and comparisons on ten registers, and a conditional jump that is taken half of the time. */
static void build_arithmetic(struct image *i)
{
    emit_movei(i, 0x12345678, 1);
    emit_movei(i, 0x9E3779B9, 2);
    emit(i, MOVEQ, 5, 3);
    size_t loop = i->end;
    emit(i, ADD, 2, 1);
    emit(i, ADDC, 1, 4);
    emit(i, XOR, 1, 5);
    emit(i, SHRQ, 3, 5);
    emit(i, SUB, 5, 6);
    emit(i, SUBQ, 7, 7);
    emit(i, ROR, 3, 6);
    emit(i, AND, 2, 4);
    emit(i, BTST, 0, 1);
    emit_jr(i, 2, i->end + 8);
    emit(i, ADDQT, 1, 8);
    emit(i, NOT, 0, 9);
    emit(i, OR, 6, 9);
    emit(i, CMP, 1, 9);
    emit_jr(i, 0, loop);
    emit(i, ADDQ, 1, 10);
}

/* A block of longs is walked, each long read and written by every kind of address. */
static void build_memory(struct image *i)
{
    emit_movei(i, GPU_RAM_BASE + 0x800, 14);
    emit_movei(i, GPU_RAM_BASE + 0xC00, 15);
    emit_movei(i, 0x3FC, 2);
    emit_movei(i, GPU_RAM_BASE + 0x400, 3);
    size_t loop = i->end;
    emit(i, LOAD_R14_QUICK, 1, 4);
    emit(i, LOAD_R15_QUICK, 5, 5);
    emit(i, ADDQT, 4, 1);
    emit(i, AND, 2, 1);
    emit(i, LOAD_R14_REGISTER, 1, 6);
    emit(i, STORE_R15_REGISTER, 1, 4);
    emit(i, LOAD, 3, 7);
    emit(i, ADDQ, 1, 7);
    emit(i, STORE, 3, 7);
    emit(i, STORE_R14_QUICK, 9, 5);
    emit(i, STORE_R15_QUICK, 0, 6);
    emit_jr(i, 0, loop);
    emit(i, STORE_R14_QUICK, 2, 7);
}

/* Products, a sum of products and divisions whose operands keep changing. */
static void build_multiply(struct image *i)
{
    emit_movei(i, 0x12345, 1);
    emit_movei(i, 0x3C6EF35F, 2);
    emit_movei(i, 0x19660D, 3);
    size_t loop = i->end;
    emit(i, MULT, 3, 1);
    emit(i, ADD, 2, 1);
    emit(i, MOVE, 1, 4);
    emit(i, IMULT, 3, 4);
    emit(i, IMULTN, 1, 4);
    emit(i, IMACN, 3, 1);
    emit(i, IMACN, 4, 2);
    emit(i, RESMAC, 0, 5);
    emit(i, MOVE, 1, 6);
    emit(i, DIV, 3, 6);
    emit(i, ADD, 6, 5);
    emit(i, BSET, 3, 6);
    emit(i, MOVE, 2, 7);
    emit(i, DIV, 6, 7);
    emit_jr(i, 0, loop);
    emit(i, ADD, 7, 5);
}

/* A little of everything: MOVEI, JUMP and JR, both banks by a store to the flag register, saturation, loads. */
static void build_mix(struct image *i)
{
    uint32_t loop = here(i);
    emit_movei(i, GPU_FLAGS_ADDRESS, 1);
    emit(i, LOAD, 1, 2);
    emit(i, MOVEQ, 1, 3);
    emit(i, SHLQ, 14, 3);
    emit(i, XOR, 3, 2);
    emit(i, ADDQ, 3, 5);
    emit(i, MOVETA, 5, 6);
    emit(i, STORE, 1, 2);
    emit_movei(i, GPU_RAM_BASE + 0x800, 14);
    emit(i, MOVEFA, 5, 7);
    emit(i, ADD, 7, 6);
    emit(i, MOVE, 6, 8);
    emit(i, SAT8, 0, 8);
    emit(i, STORE_R14_QUICK, 3, 8);
    emit(i, CMPQ, 4, 8);
    emit_jr(i, 8, i->end + 6);
    emit(i, SHARQ, 2, 6);
    emit(i, NORMI, 6, 9);
    emit(i, SH, 9, 6);
    emit(i, LOAD_R14_QUICK, 3, 10);
    emit(i, MULT, 10, 8);
    emit(i, SAT16, 0, 8);
    emit(i, ABS, 0, 9);
    emit_movei(i, loop, 11);
    emit(i, JUMP, 11, 0);
    emit(i, SUBQ, 1, 12);
}

struct loop {
    const char *name;
    void (*build)(struct image *i);
};

static const struct loop loops[] = {
    {"arithmetic", build_arithmetic},
    {"loads and stores", build_memory},
    {"multiply and divide", build_multiply},
    {"mix", build_mix},
};

enum { LOOPS = sizeof loops / sizeof loops[0] };

/* The start of a program: the counter at its first word, running, all else zero. */
static void put_start_state(uint8_t *block)
{
    memset(block, 0, GPU_BLOCK_LENGTH);
    gpu_put_long(block, GPU_BLOCK_COUNTER, GPU_RAM_BASE);
    gpu_put_long(block, GPU_BLOCK_STATUS, GPU_STATUS_RUNNING);
}

static double seconds(void)
{
    struct timespec now;
    clock_gettime(CLOCK_MONOTONIC, &now);
    return (double)now.tv_sec + (double)now.tv_nsec / 1e9;
}

/* The time of one call that spends the largest budget. */
static double timed_call(run_function *run, uint8_t *ram, uint8_t *block)
{
    double start = seconds();
    uint64_t reply = run(ram, GPU_RAM_LENGTH, block, GPU_BLOCK_LENGTH, GPU_BUDGET_LIMIT);
    double time = seconds() - start;
    if (gpu_answer(reply) != GPU_BUDGET_SPENT || gpu_steps(reply) != GPU_BUDGET_LIMIT) {
        fprintf(stderr, "bench: answer %u after %" PRIu64 " steps, where a loop spends its budget\n",
                gpu_answer(reply), gpu_steps(reply));
        exit(1);
    }
    return time;
}

static double timed_fresh_call(run_function *run, const struct loop *loop)
{
    struct image image = {{0}, 0};
    uint8_t block[GPU_BLOCK_LENGTH];
    loop->build(&image);
    put_start_state(block);
    return timed_call(run, image.ram, block);
}

static int by_size(const void *a, const void *b)
{
    double x = *(const double *)a, y = *(const double *)b;
    return (x > y) - (x < y);
}

static double median(double *numbers, size_t count)
{
    qsort(numbers, count, sizeof numbers[0], by_size);
    return count % 2 ? numbers[count / 2] : (numbers[count / 2 - 1] + numbers[count / 2]) / 2;
}

enum { MOST_PAIRS = 1001, LEAST_PAIRS = 15, LEAST_CALLS = 200, ENDS = 100 };

/* Says how far a measurement is, every few seconds, apart from the results. */
static void tell_progress(const char *what, size_t done, size_t all)
{
    static double told;
    if (seconds() - told >= 5) {
        told = seconds();
        fprintf(stderr, "bench: %s, %zu of %zu\n", what, done, all);
    }
}

/* The system counts memory in steps of up to 64 pages, which is no growth yet. */
enum { COUNTING_STEP_KILOBYTES = 256 };

/* Prints both times and gives the median ratio. A first pair warms up and is not counted. */
static double time_loop(const struct loop *loop, size_t pairs)
{
    static double measured[MOST_PAIRS], plain[MOST_PAIRS], ratios[MOST_PAIRS];
    timed_fresh_call(MEASURED, loop);
    timed_fresh_call(interpreter_run, loop);
    for (size_t i = 0; i < pairs; i++) {
        tell_progress(loop->name, i, pairs);
        if (i % 2 == 0) {
            measured[i] = timed_fresh_call(MEASURED, loop);
            plain[i] = timed_fresh_call(interpreter_run, loop);
        } else {
            plain[i] = timed_fresh_call(interpreter_run, loop);
            measured[i] = timed_fresh_call(MEASURED, loop);
        }
        ratios[i] = measured[i] / plain[i];
    }
    double ratio = median(ratios, pairs);
    double per_step = 1e9 / GPU_BUDGET_LIMIT;
    printf("%-20s %8.2f ns %8.2f ns %8.2f\n", loop->name, median(measured, pairs) * per_step,
           median(plain, pairs) * per_step, ratio);
    fflush(stdout);
    return ratio;
}

static double time_loops(size_t pairs)
{
    double worst = 0;
    printf("per step, median of %zu pairs: %s, interpreter, ratio\n", pairs, MEASURED_NAME);
    for (int i = 0; i < LOOPS; i++) {
        double ratio = time_loop(&loops[i], pairs);
        worst = ratio > worst ? ratio : worst;
    }
    printf("worst ratio %.2f\n", worst);
    fflush(stdout);
    return worst;
}

static long peak_kilobytes(void)
{
    struct rusage usage;
    getrusage(RUSAGE_SELF, &usage);
    return usage.ru_maxrss;
}

/* What a series of calls goes on from. */
struct series {
    struct image image;
    uint8_t block[GPU_BLOCK_LENGTH];
};

static void start_series(struct series *s)
{
    memset(s, 0, sizeof *s);
    build_mix(&s->image);
    put_start_state(s->block);
}

/* A series of calls that go on from each other's state, as a kiosk makes them. Gives the growth of peak memory. Each call
   stands beside one of the interpreter, so that a machine that changes its speed does not look like a call that does. A
   first pair and the two lists are touched before, so that only what the series itself takes is seen. */
static long run_series(size_t calls)
{
    static double first[ENDS], last[ENDS];
    static struct series measured, plain;
    start_series(&measured);
    start_series(&plain);
    memset(first, 1, sizeof first);
    memset(last, 1, sizeof last);
    timed_call(MEASURED, measured.image.ram, measured.block);
    timed_call(interpreter_run, plain.image.ram, plain.block);
    long before = peak_kilobytes();
    for (size_t i = 0; i < calls; i++) {
        tell_progress("calls in a series", i, calls);
        double time = timed_call(MEASURED, measured.image.ram, measured.block);
        double ratio = time / timed_call(interpreter_run, plain.image.ram, plain.block);
        if (i < ENDS) {
            first[i] = ratio;
        }
        if (i >= calls - ENDS) {
            last[i - (calls - ENDS)] = ratio;
        }
    }
    long after = peak_kilobytes();
    printf("%zu calls of %d steps of the mix through %s\n", calls, GPU_BUDGET_LIMIT, MEASURED_NAME);
    printf("peak memory before %ld kB, after %ld kB\n", before, after);
    printf("median ratio of the first %d calls %.2f, of the last %d calls %.2f\n", ENDS, median(first, ENDS), ENDS,
           median(last, ENDS));
    return after - before;
}

/* Both on one loop, for bench/instructions. */
static int call_once(unsigned long loop)
{
    if (loop >= LOOPS) {
        fprintf(stderr, "bench: there are loops 0 to %d\n", LOOPS - 1);
        return 2;
    }
    timed_fresh_call(MEASURED, &loops[loop]);
    timed_fresh_call(interpreter_run, &loops[loop]);
    printf("%s\n", loops[loop].name);
    return 0;
}

static size_t at_least(size_t number, size_t least)
{
    return number < least ? least : number;
}

int main(int argc, char **argv)
{
    size_t pairs = 31, calls = 1000;
    double limit = 0;
    for (int i = 1; i + 1 < argc; i += 2) {
        if (strcmp(argv[i], "--pairs") == 0) {
            pairs = strtoul(argv[i + 1], NULL, 10);
        } else if (strcmp(argv[i], "--calls") == 0) {
            calls = strtoul(argv[i + 1], NULL, 10);
        } else if (strcmp(argv[i], "--limit") == 0) {
            limit = strtod(argv[i + 1], NULL);
        } else if (strcmp(argv[i], "--once") == 0) {
            return call_once(strtoul(argv[i + 1], NULL, 10));
        } else {
            fprintf(stderr, "usage: bench [--pairs N] [--calls N] [--limit R] [--once LOOP]\n");
            return 2;
        }
    }
    pairs = at_least(pairs > MOST_PAIRS ? MOST_PAIRS : pairs, LEAST_PAIRS);
    double worst = time_loops(pairs);
    long growth = run_series(at_least(calls, LEAST_CALLS));
    return limit > 0 && (worst > limit || growth > COUNTING_STEP_KILOBYTES);
}
