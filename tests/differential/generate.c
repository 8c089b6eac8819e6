#include "generate.h"

#include <stdbool.h>
#include <string.h>

#include "gpu.h"
#include "random.h"

struct test_case t;

const uint32_t edges[EDGES] = {
    0,          1,          2,          3,          15,         16,         22,         30,         31,
    32,         33,         63,         64,         255,        256,        0x7FFF,     0x8000,     0xFFFF,
    0x10000,    0x10001,    0x3FFFFF,   0x400000,   0x7FFFFF,   0x800000,   0xFFFFFF,   0x1000000,  0x3FFFFFFF,
    0x55555555, 0x7FFFFFFE, 0x7FFFFFFF, 0x80000000, 0x80000001, 0xAAAAAAAA, 0xBFC00000, 0xFF7FFFFF, 0xFF800000,
    0xFFFF0000, 0xFFFF7FFF, 0xFFFF8000, 0xFFFFFF00, 0xFFFFFFC0, 0xFFFFFFDF, 0xFFFFFFE0, 0xFFFFFFE1, 0xFFFFFFF0,
    0xFFFFFFFE, 0xFFFFFFFF,
};

/* The three chip registers stand here twice, to be met more often. */
const uint32_t addresses[ADDRESSES] = {
    0xF02100,   0xF02114,   0xF0211C, 0xF02100,   0xF02114,   0xF0211C, 0xF020FC, 0xF02101, 0xF02102, 0xF02104,
    0xF02110,   0xF02115,   0xF02118, 0xF0211E,   0xF02120,   0xF02FFC, 0xF02FFE, 0xF02FFF, 0xF03000, 0xF03001,
    0xF03002,   0xF03003,   0xF03004, 0xF03FF8,   0xF03FFC,   0xF03FFD, 0xF03FFE, 0xF03FFF, 0xF04000, 0xF04001,
    0x80F03000, 0xFFF03000, 0x3000,   0x01F03000, 0xFFFFFFFC, 0xF04004, 0,        0xFFFFFFFF,
};

static const uint8_t not_built[] = {39, 40, 42, 45, 46, 48, 54, 63};
static const uint8_t source_is_zero[] = {8, 12, 19, 22, 32, 33, 38, 51, 57, 62};

enum { MOVEQ = 35, MOVEI = 38, MOVE_PC = 51, JUMP = 52, JR = 53, NOP = 57 };

static bool is_one_of(uint32_t number, const uint8_t *numbers, size_t count)
{
    return memchr(numbers, (int)number, count) != NULL;
}

uint32_t word_of(uint32_t opcode, uint32_t source, uint32_t destination)
{
    return opcode * 1024 + source * 32 + destination;
}

uint32_t source_field(uint32_t word)
{
    return word / 32 % 32;
}

uint32_t destination_field(uint32_t word)
{
    return word % 32;
}

void put_word(uint32_t offset, uint32_t word)
{
    t.ram[offset % GPU_RAM_LENGTH] = (uint8_t)(word / 256);
    t.ram[(offset + 1) % GPU_RAM_LENGTH] = (uint8_t)word;
}

uint32_t word_with(uint32_t opcode)
{
    uint32_t source = is_one_of(opcode, source_is_zero, sizeof source_is_zero) ? 0 : random_below(32);
    return word_of(opcode, source, opcode == NOP ? 0 : random_below(32));
}

uint32_t built_word(void)
{
    uint32_t opcode;
    do {
        opcode = random_below(64);
    } while (is_one_of(opcode, not_built, sizeof not_built));
    return word_with(opcode);
}

void put_random_words(uint32_t offset, uint32_t count)
{
    for (uint32_t i = 0; i < count; i++) {
        put_word(offset + 2 * i, random_below(32) == 0 ? random_below(65536) : built_word());
    }
}

uint32_t ram_address(void)
{
    return GPU_RAM_BASE + 4 * random_below(GPU_RAM_LENGTH / 4);
}

uint32_t random_content(void)
{
    switch (random_below(8)) {
    case 0:
    case 1:
        return edges[random_below(EDGES)];
    case 2:
        return addresses[random_below(ADDRESSES)];
    case 3:
    case 4:
        return ram_address();
    case 5:
        return 4 * random_below(64);
    default:
        return random_long();
    }
}

void put_register(unsigned bank, unsigned field, uint32_t value)
{
    gpu_put_long(t.block, 128 * bank + 4 * field, value);
}

void put_counter(uint32_t counter)
{
    gpu_put_long(t.block, GPU_BLOCK_COUNTER, counter);
}

void put_status(uint32_t status)
{
    gpu_put_long(t.block, GPU_BLOCK_STATUS, status);
    gpu_put_long(t.block, GPU_BLOCK_TARGET, (status & GPU_STATUS_PENDING) ? random_content() : 0);
}

uint32_t random_status(void)
{
    uint32_t status = random_below(8);
    status |= random_below(2) ? GPU_STATUS_BANK : 0;
    status |= random_below(2) ? GPU_STATUS_DIVIDE_MODE : 0;
    status |= random_below(8) == 0 ? GPU_STATUS_PENDING : 0;
    status |= random_below(64) != 0 ? GPU_STATUS_RUNNING : 0;
    return status;
}

/* R14 and R15 are more often at a place where an offset stays in RAM. */
static void put_random_registers(void)
{
    for (unsigned i = 0; i < 64; i++) {
        put_register(i / 32, i % 32, random_content());
    }
    for (unsigned i = 0; i < 4; i++) {
        if (random_below(4) != 0) {
            put_register(i / 2, 14 + i % 2, ram_address());
        }
    }
}

void put_random_state(void)
{
    put_random_registers();
    gpu_put_long(t.block, GPU_BLOCK_REMAINDER, random_content());
    gpu_put_long(t.block, GPU_BLOCK_ACCUMULATOR, random_content());
    put_counter(GPU_RAM_BASE + 2 * random_below(GPU_RAM_LENGTH / 2));
    put_status(random_status());
}

uint32_t counter_offset(void)
{
    return gpu_long(t.block, GPU_BLOCK_COUNTER) - GPU_RAM_BASE;
}

/* The registers that a loop's instructions only read, the same in both banks, since the loop may switch them. */
enum { FIRST_KEPT = 14, OFFSET = 17, FLAGS = 18, DIVIDE = 19, START = 20, LAST_KEPT = 20 };

static void put_kept_registers(void)
{
    for (unsigned bank = 0; bank < 2; bank++) {
        put_register(bank, 14, GPU_RAM_BASE + 0x800);
        put_register(bank, 15, GPU_RAM_BASE + 0xC00);
        put_register(bank, 16, GPU_RAM_BASE + 0x800 + 4 * random_below(512));
        put_register(bank, OFFSET, 4 * random_below(64));
        put_register(bank, FLAGS, GPU_FLAGS_ADDRESS);
        put_register(bank, DIVIDE, GPU_DIVIDE_ADDRESS);
        put_register(bank, START, GPU_RAM_BASE);
    }
}

static uint32_t free_register(void)
{
    uint32_t field = random_below(32 - (LAST_KEPT - FIRST_KEPT + 1));
    return field < FIRST_KEPT ? field : field + (LAST_KEPT - FIRST_KEPT + 1);
}

/* A load or store by the kept registers, or another instruction that writes none of them. */
static uint32_t calm_word(void)
{
    static const uint32_t pointers[] = {14, 15, 16, 16, FLAGS, DIVIDE};
    uint32_t word = built_word();
    uint32_t source = source_field(word);
    uint32_t opcode = word / 1024;
    switch (opcode) {
    case 41:
    case 47:
        source = pointers[random_below(6)];
        break;
    case 58:
    case 59:
    case 60:
    case 61:
        source = OFFSET;
        break;
    case MOVEI:
    case JUMP:
    case JR:
        return word_of(MOVEQ, source, free_register());
    case NOP:
        return word;
    }
    return word_of(opcode, source, free_register());
}

/* MOVE PC may not follow a taken jump. */
static uint32_t calm_word_after_jump(void)
{
    uint32_t word;
    do {
        word = calm_word();
    } while (word / 1024 == MOVE_PC);
    return word;
}

/* Five NOPs stand before the JUMP, so that a JR near the end does not skip it. */
void put_loop(void)
{
    uint32_t length = 2 + random_below(60);
    uint32_t at = 0;
    put_kept_registers();
    while (at < 2 * length) {
        if (random_below(16) == 0) {
            put_word(at, word_of(JR, 1, 0) + random_below(4 * 32));
            put_word(at + 2, calm_word_after_jump());
            at += 4;
        } else if (random_below(16) == 0) {
            put_word(at, word_of(MOVEI, 0, free_register()));
            put_word(at + 2, calm_word());
            put_word(at + 4, calm_word());
            at += 6;
        } else {
            put_word(at, calm_word());
            at += 2;
        }
    }
    for (int i = 0; i < 5; i++) {
        put_word(at + 2 * i, word_of(NOP, 0, 0));
    }
    put_word(at + 10, word_of(JUMP, START, 0));
    put_word(at + 12, calm_word_after_jump());
}
