/* Holds gpu_run, the reference and the interpreter to each other on single instructions over edge values, on random
   words, states, programs and budgets, and on damaged blocks and wrong lengths.

   differential [seed [rounds]]: the seed is a number, by default always the same; each round makes the random programs
   and loops once more. */

#include <inttypes.h>
#include <stdbool.h>
#include <stdio.h>
#include <stdlib.h>

#include "compare.h"
#include "generate.h"
#include "gpu.h"
#include "random.h"

#define COUNT(array) (sizeof(array) / sizeof((array)[0]))

uint64_t random_state;

/* Every opcode on every pair of edge values, with C clear and set; the other flags, the modes and fields at random. */
static void compare_operands(void)
{
    put_random_state();
    t.budget = 1;
    for (uint32_t i = 0; i < 64 * EDGES * EDGES * 2; i++) {
        uint32_t word = word_with(i / (EDGES * EDGES * 2));
        uint32_t status = random_status() & ~(uint32_t)(GPU_STATUS_C | GPU_STATUS_PENDING);
        unsigned bank = (status & GPU_STATUS_BANK) != 0;
        put_status(status | GPU_STATUS_RUNNING | (i % 2 ? GPU_STATUS_C : 0));
        put_counter(GPU_RAM_BASE + 2 * random_below(GPU_RAM_LENGTH / 2));
        put_word(counter_offset(), word);
        put_register(bank, source_field(word), edges[i / 2 % EDGES]);
        put_register(bank, destination_field(word), edges[i / 2 / EDGES % EDGES]);
        compare(&t);
    }
}

/* Every word, in both banks, with and without a pending jump, in both divide modes. The budget goes a little further,
   to see where a jump lands. */
static void compare_words(void)
{
    for (uint32_t i = 0; i < 65536 * 8; i++) {
        put_random_state();
        put_status(random_below(8) | GPU_STATUS_RUNNING | (i & 1 ? GPU_STATUS_BANK : 0) |
                   (i & 2 ? GPU_STATUS_PENDING : 0) | (i & 4 ? GPU_STATUS_DIVIDE_MODE : 0));
        put_random_words(counter_offset(), 3);
        put_word(counter_offset(), i / 8);
        t.budget = 1 + random_below(3);
        compare(&t);
    }
}

/* JR and JUMP with every source field and condition, under all flags. */
static void compare_jumps(void)
{
    for (uint32_t i = 0; i < 2 * 1024 * 8; i++) {
        put_random_state();
        put_status(i % 8 | GPU_STATUS_RUNNING);
        put_word(counter_offset(), 52 * 1024 + i / 8);
        put_word(counter_offset() + 2, built_word());
        t.budget = 1 + random_below(4);
        compare(&t);
    }
}

/* All ten loads and stores at every edge address, by whatever base and offset make it up. */
static void compare_addresses(void)
{
    static const uint32_t opcodes[] = {41, 43, 44, 47, 49, 50, 58, 59, 60, 61};
    for (uint32_t i = 0; i < COUNT(opcodes) * ADDRESSES * 256; i++) {
        uint32_t word = word_with(opcodes[i % COUNT(opcodes)]);
        uint32_t address = addresses[i / COUNT(opcodes) % ADDRESSES];
        uint32_t quick = source_field(word) == 0 ? 32 : source_field(word);
        bool by_register = word / 1024 >= 58;
        uint32_t offset = by_register ? random_content() : 4 * quick;
        put_random_state();
        put_word(counter_offset(), word);
        for (unsigned bank = 0; bank < 2; bank++) {
            put_register(bank, 14, address - offset);
            put_register(bank, 15, address - offset);
            if (word / 1024 == 41 || word / 1024 == 47) {
                put_register(bank, source_field(word), address);
            } else if (by_register && source_field(word) != 14 && source_field(word) != 15) {
                put_register(bank, source_field(word), offset);
            }
        }
        t.budget = 1 + random_below(2);
        compare(&t);
    }
}

/* Every opcode at counters where fetching changes its ways: odd, outside, the last places for one word and for the
   three of MOVEI. */
static void compare_counters(void)
{
    static const uint32_t counters[] = {
        0,        1,        2,        0xF02FFE, 0xF02FFF, 0xF03000,   0xF03001,   0xF03002,   0xF037FF,   0xF03FF6,
        0xF03FF8, 0xF03FF9, 0xF03FFA, 0xF03FFB, 0xF03FFC, 0xF03FFD,   0xF03FFE,   0xF03FFF,   0xF04000,   0xF04001,
        0xF02100, 0xF02114, 0x3000,   0x1F03000, 0x80F03000, 0xFFFFFFFA, 0xFFFFFFFC, 0xFFFFFFFE, 0xFFFFFFFF,
    };
    for (uint32_t i = 0; i < COUNT(counters) * 64 * 16; i++) {
        uint32_t word = i / 64 % 4 == 0 ? word_of(i % 64, 0, 0) + random_below(1024) : word_with(i % 64);
        put_random_state();
        put_counter(counters[i / 1024]);
        put_status(random_status() | (i & 512 ? GPU_STATUS_PENDING : 0));
        put_word(counter_offset() & ~1u, word);
        t.budget = random_below(4);
        compare(&t);
    }
}

static uint64_t random_budget(void)
{
    switch (random_below(8)) {
    case 0:
        return random_below(2);
    case 1:
        return random_below(4000);
    case 2:
        return 100 + random_below(200);
    default:
        return 1 + random_below(32);
    }
}

/* Random words from a random state. The RAM of the case before is kept but for the words at the counter. */
static void compare_programs(uint32_t count)
{
    for (uint32_t i = 0; i < count; i++) {
        put_random_state();
        put_random_words(counter_offset(), 1 + random_below(24));
        t.budget = random_budget();
        compare(&t);
    }
}

/* Nothing but random bytes, in RAM and in the block. */
static void compare_noise(uint32_t count)
{
    for (uint32_t i = 0; i < count; i++) {
        if (i % 64 == 0) {
            for (uint32_t at = 0; at < GPU_RAM_LENGTH; at += 4) {
                gpu_put_long(t.ram, at, random_long());
            }
        }
        for (uint32_t at = 0; at < GPU_BLOCK_STATUS; at += 4) {
            gpu_put_long(t.block, at, random_long());
        }
        put_counter(GPU_RAM_BASE + 2 * random_below(GPU_RAM_LENGTH / 2));
        put_status(random_status());
        t.budget = random_budget();
        compare(&t);
    }
}

static void compare_loops(uint32_t count, uint32_t least_budget, uint32_t most_budget)
{
    for (uint32_t i = 0; i < count; i++) {
        put_random_state();
        put_loop();
        put_counter(GPU_RAM_BASE);
        put_status(random_status() & ~(uint32_t)GPU_STATUS_PENDING);
        t.budget = least_budget + random_below(most_budget - least_budget + 1);
        compare(&t);
    }
}

/* Each bit of the status alone and with others, and a target with and without a pending jump. */
static void compare_damaged_blocks(void)
{
    for (uint32_t i = 0; i < 32 * 1024; i++) {
        put_random_state();
        uint32_t status = gpu_long(t.block, GPU_BLOCK_STATUS) ^ (uint32_t)1 << i % 32;
        gpu_put_long(t.block, GPU_BLOCK_STATUS, status);
        if (random_below(4) == 0) {
            gpu_put_long(t.block, GPU_BLOCK_TARGET, random_below(2) ? (uint32_t)1 << random_below(32) : 0);
        }
        t.budget = random_below(16) == 0 ? 1000001 : random_below(8);
        compare(&t);
    }
}

/* All pairs of lengths with all kinds of budget, on right and on damaged blocks, running and stopped. */
static void compare_refusals(void)
{
    static const size_t ram_lengths[] = {0, 1, 2, 275, 276, 277, 4092, 4095, 4096, 4096, 4097, 4100, 8191, 8192};
    static const size_t block_lengths[] = {0, 1, 4, 272, 275, 276, 276, 276, 277, 280, 4096, 8192};
    static const uint64_t budgets[] = {0,          1,           7,           1000001,           1000002,
                                       0xFFFFFFFF, 0x100000000, 0x1000F4240, 0x7FFFFFFFFFFFFFFF, 0xFFFFFFFFFFFFFFFF};
    const uint32_t cases = COUNT(ram_lengths) * COUNT(block_lengths) * COUNT(budgets);
    for (uint32_t i = 0; i < cases * 16; i++) {
        put_random_state();
        if (random_below(2)) {
            uint32_t status = random_status();
            gpu_put_long(t.block, GPU_BLOCK_STATUS, status | (uint32_t)1 << random_below(32));
        }
        t.ram_len = ram_lengths[i % COUNT(ram_lengths)];
        t.block_len = block_lengths[i / COUNT(ram_lengths) % COUNT(block_lengths)];
        t.budget = budgets[i / COUNT(ram_lengths) / COUNT(block_lengths) % COUNT(budgets)];
        compare(&t);
    }
}

/* A number with a comma before every three digits. */
static void print_number(uint64_t number)
{
    if (number >= 1000) {
        print_number(number / 1000);
        printf(",%03" PRIu64, number % 1000);
    } else {
        printf("%" PRIu64, number);
    }
}

static void start_kind(void)
{
    t.ram_len = GPU_RAM_LENGTH;
    t.block_len = GPU_BLOCK_LENGTH;
    put_random_words(0, GPU_RAM_LENGTH / 2);
}

/* How many kinds of cases there are once, and in each round. */
enum { KINDS_ONCE = 7, KINDS_PER_ROUND = 4 };

static uint64_t kinds_done, kinds;

static void end_kind(const char *name)
{
    printf("%" PRIu64 " of %" PRIu64 ", %s: ", ++kinds_done, kinds, name);
    print_number(cases_compared());
    printf(" cases so far\n");
    fflush(stdout);
}

#define KIND(name, call)                                                                                               \
    start_kind();                                                                                                      \
    call;                                                                                                              \
    end_kind(name)

int main(int argc, char **argv)
{
    uint64_t seed = argc > 1 ? strtoull(argv[1], NULL, 0) : 19931123;
    uint64_t rounds = argc > 2 ? strtoull(argv[2], NULL, 0) : 1;
    random_state = seed == 0 ? 1 : seed;
    kinds = KINDS_ONCE + KINDS_PER_ROUND * rounds;
    printf("seed %" PRIu64 "\n", seed);
    fflush(stdout);
    prepare_comparison();

    KIND("operands at edge values", compare_operands());
    KIND("every word", compare_words());
    KIND("jumps and conditions", compare_jumps());
    KIND("addresses", compare_addresses());
    KIND("counters", compare_counters());
    KIND("damaged blocks", compare_damaged_blocks());
    KIND("lengths and budgets", compare_refusals());
    for (uint64_t round = 0; round < rounds; round++) {
        KIND("random programs", compare_programs(600000));
        KIND("random bytes", compare_noise(100000));
        KIND("loops", compare_loops(10000, 0, 4000));
        KIND("loops of a million steps", compare_loops(100, GPU_BUDGET_LIMIT - 1, GPU_BUDGET_LIMIT));
    }

    report_coverage();
    printf("differential: ");
    print_number(cases_compared());
    printf(" cases agree\n");
    return 0;
}
