/* Each implementation has buffers of its own with a page before and a page after them that nobody may touch. A buffer
   ends directly at the one in every other case and starts directly at the other in the rest, so that an access outside
   on either side ends the program. */

#define _DEFAULT_SOURCE

#include "compare.h"

#include <inttypes.h>
#include <signal.h>
#include <stdbool.h>
#include <stdio.h>
#include <stdlib.h>
#include <string.h>
#include <sys/mman.h>
#include <unistd.h>

#include "gpu.h"
#include "interpreter.h"
#include "reference.h"

typedef uint64_t run_function(uint8_t *ram, size_t ram_len, uint8_t *block, size_t block_len, uint64_t budget);

struct implementation {
    const char *name;
    run_function *run;
    uint8_t *ram_area, *block_area;
    uint8_t *ram, *block;
    uint64_t reply;
};

/* The first is the one that the others are held to. */
static struct implementation implementations[] = {
    {.name = "reference_run", .run = reference_run},
    {.name = "interpreter_run", .run = interpreter_run},
#ifndef WITHOUT_ARCHIVE
    {.name = "gpu_run", .run = gpu_run},
#endif
};

enum { IMPLEMENTATIONS = sizeof implementations / sizeof implementations[0] };

static uint64_t cases;
static uint64_t steps;
static uint64_t answers[256];
static uint64_t completed[64];
static const char *volatile running_name = "nobody";

uint64_t cases_compared(void)
{
    return cases;
}

static void fail(const char *message)
{
    fprintf(stderr, "differential: %s\n", message);
    exit(1);
}

/* The signal comes from the code under test and not from the C library, so that printing is safe here. */
static void report_access_outside(int signal_number)
{
    char line[120];
    int length = snprintf(line, sizeof line, "differential: %s reached outside its buffers in case %" PRIu64 "\n",
                          running_name, cases);
    (void)signal_number;
    if (write(STDERR_FILENO, line, (size_t)length) < 0) {
        _exit(2);
    }
    _exit(1);
}

static uint8_t *guarded_area(void)
{
    size_t page = (size_t)sysconf(_SC_PAGESIZE);
    size_t inner = (BUFFER_LENGTH + page - 1) / page * page;
    uint8_t *all = mmap(NULL, inner + 2 * page, PROT_NONE, MAP_PRIVATE | MAP_ANONYMOUS, -1, 0);
    if (all == MAP_FAILED || mprotect(all + page, inner, PROT_READ | PROT_WRITE) != 0) {
        fail("no memory for the buffers");
    }
    if (inner != BUFFER_LENGTH) {
        fail("the size of a page does not divide the size of a buffer");
    }
    return all + page;
}

void prepare_comparison(void)
{
    for (int i = 0; i < IMPLEMENTATIONS; i++) {
        implementations[i].ram_area = guarded_area();
        implementations[i].block_area = guarded_area();
    }
    signal(SIGSEGV, report_access_outside);
    signal(SIGBUS, report_access_outside);
}

static uint8_t *placed(uint8_t *area, const uint8_t *bytes, size_t length)
{
    uint8_t *place = cases % 2 == 0 ? area + BUFFER_LENGTH - length : area;
    if (length == 0) {
        return NULL;
    }
    memcpy(place, bytes, length);
    return place;
}

static void run_one(struct implementation *i, const struct test_case *t, uint64_t budget)
{
    i->ram = placed(i->ram_area, t->ram, t->ram_len);
    i->block = placed(i->block_area, t->block, t->block_len);
    running_name = i->name;
    i->reply = i->run(i->ram, t->ram_len, i->block, t->block_len, budget);
    running_name = "nobody";
}

static bool same_bytes(const uint8_t *a, const uint8_t *b, size_t length)
{
    return length == 0 || memcmp(a, b, length) == 0;
}

static bool agree(const struct implementation *a, const struct implementation *b, const struct test_case *t)
{
    return a->reply == b->reply && same_bytes(a->ram, b->ram, t->ram_len) &&
           same_bytes(a->block, b->block, t->block_len);
}

static bool agree_on(struct implementation *a, struct implementation *b, const struct test_case *t, uint64_t budget)
{
    run_one(a, t, budget);
    run_one(b, t, budget);
    return agree(a, b, t);
}

/* The smallest budget on which the two differ, so that the report shows the first step that went wrong. */
static uint64_t smallest_budget(struct implementation *a, struct implementation *b, const struct test_case *t)
{
    uint64_t low = 0, high = t->budget;
    if (high > GPU_BUDGET_LIMIT) {
        return high;
    }
    while (low < high) {
        uint64_t middle = (low + high) / 2;
        if (agree_on(a, b, t, middle)) {
            low = middle + 1;
        } else {
            high = middle;
        }
    }
    return low;
}

static void print_state(const uint8_t *ram, const uint8_t *block)
{
    uint32_t counter = gpu_long(block, GPU_BLOCK_COUNTER);
    printf("  counter %08" PRIX32 ", target %08" PRIX32 ", remainder %08" PRIX32 ", accumulator %08" PRIX32
           ", status %08" PRIX32 "\n",
           counter, gpu_long(block, GPU_BLOCK_TARGET), gpu_long(block, GPU_BLOCK_REMAINDER),
           gpu_long(block, GPU_BLOCK_ACCUMULATOR), gpu_long(block, GPU_BLOCK_STATUS));
    for (unsigned i = 0; i < 64; i++) {
        printf("%s%08" PRIX32, i % 32 == 0 ? (i == 0 ? "  bank 0:" : "  bank 1:") : "", gpu_long(block, 4 * i));
        printf("%s", i % 8 == 7 ? (i % 32 == 31 ? "\n" : "\n         ") : " ");
    }
    printf("  words at the counter:");
    for (uint32_t at = counter - GPU_RAM_BASE; at < GPU_RAM_LENGTH - 1 && at < counter - GPU_RAM_BASE + 8; at += 2) {
        printf(" %04X", ram[at] * 256u + ram[at + 1]);
    }
    printf("\n");
}

static void print_difference(const char *what, const uint8_t *a, const uint8_t *b, size_t length)
{
    for (size_t i = 0; i < length; i++) {
        if (a[i] != b[i]) {
            printf("  %s byte %zu: %02X and %02X\n", what, i, a[i], b[i]);
            return;
        }
    }
}

static void report_difference(struct implementation *a, struct implementation *b, const struct test_case *t)
{
    uint64_t budget = smallest_budget(a, b, t);
    printf("differential: %s and %s differ in case %" PRIu64 "\n", a->name, b->name, cases);
    printf("  RAM length %zu, block length %zu, budget %" PRIu64 ", first different with budget %" PRIu64 "\n",
           t->ram_len, t->block_len, t->budget, budget);
    if (t->ram_len == GPU_RAM_LENGTH && t->block_len == GPU_BLOCK_LENGTH) {
        run_one(a, t, budget == 0 ? 0 : budget - 1);
        printf("  the state before that step:\n");
        print_state(a->ram, a->block);
    }
    agree_on(a, b, t, budget);
    printf("  answers %u and %u, steps %" PRIu64 " and %" PRIu64 "\n", gpu_answer(a->reply), gpu_answer(b->reply),
           gpu_steps(a->reply), gpu_steps(b->reply));
    print_difference("RAM", a->ram, b->ram, t->ram_len);
    print_difference("block", a->block, b->block, t->block_len);
    exit(1);
}

/* Notes the answer, and the opcode of the first instruction if it was run whole. */
static void note_coverage(const struct test_case *t, uint64_t reply)
{
    answers[gpu_answer(reply)]++;
    steps += gpu_steps(reply);
    if (gpu_steps(reply) > 0) {
        uint32_t counter = gpu_long(t->block, GPU_BLOCK_COUNTER);
        completed[t->ram[counter - GPU_RAM_BASE] >> 2]++;
    }
}

void compare(const struct test_case *t)
{
    run_one(&implementations[0], t, t->budget);
    for (int i = 1; i < IMPLEMENTATIONS; i++) {
        run_one(&implementations[i], t, t->budget);
        if (!agree(&implementations[0], &implementations[i], t)) {
            report_difference(&implementations[0], &implementations[i], t);
        }
    }
    note_coverage(t, implementations[0].reply);
    cases++;
}

static bool is_built_opcode(int opcode)
{
    static const int absent[] = {39, 40, 42, 45, 46, 48, 54, 63};
    for (size_t i = 0; i < sizeof absent / sizeof absent[0]; i++) {
        if (absent[i] == opcode) {
            return false;
        }
    }
    return true;
}

void report_coverage(void)
{
    static const int expected[] = {0, 1, 11, 12, 13, 14, 15, 31, 32, 34, 35};
    printf("steps run by each: %" PRIu64 "\n", steps);
    printf("cases by answer:");
    for (size_t i = 0; i < sizeof expected / sizeof expected[0]; i++) {
        printf(" %d: %" PRIu64 "%s", expected[i], answers[expected[i]],
               i + 1 < sizeof expected / sizeof expected[0] ? "," : "\n");
        if (answers[expected[i]] == 0) {
            fail("an answer never came");
        }
    }
    for (int opcode = 0; opcode < 64; opcode++) {
        if ((completed[opcode] > 0) != is_built_opcode(opcode)) {
            fail("an opcode was never run whole, or one that is not built was");
        }
    }
}
