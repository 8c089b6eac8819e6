/* Holds gpu_check to the reference on generated programs that obey the six rules, on each of them with one word broken,
   on random words, and on all kinds of lengths. Admitted programs are then stepped from random states with random data,
   to see that demand 3 holds of the compiled code: no fault, the code as it was, the counter on an instruction start.

   loading [seed [programs]] */

#define _DEFAULT_SOURCE

#include <inttypes.h>
#include <stdbool.h>
#include <stdio.h>
#include <stdlib.h>
#include <string.h>
#include <sys/mman.h>

#include "../differential/random.h"
#include "gpu.h"
#include "rules.h"

#define COUNT(array) (sizeof(array) / sizeof((array)[0]))

enum { NOP = 0xE400, MOST_HEADS = GPU_RAM_LENGTH / 2, STEPS = 300, LEAST_OF_EACH = 2000, PROGRAMS_PER_LINE = 10000 };

uint64_t random_state;

static uint8_t ram[GPU_RAM_LENGTH];
static uint64_t answers[256];
static uint64_t cases, steps;

/* RAM as gpu_check sees it: it may be read and not written, and ends at a page that may not be touched. */
static uint8_t *lent;

static void fail(const char *message)
{
    fprintf(stderr, "loading: %s\n", message);
    exit(1);
}

static void prepare(void)
{
    lent = mmap(NULL, 2 * GPU_RAM_LENGTH, PROT_NONE, MAP_PRIVATE | MAP_ANONYMOUS, -1, 0);
    if (lent == MAP_FAILED) {
        fail("no memory");
    }
}

static uint64_t compare(size_t ram_len, uint64_t code_len)
{
    size_t held = ram_len < GPU_RAM_LENGTH ? ram_len : GPU_RAM_LENGTH;
    if (mprotect(lent, GPU_RAM_LENGTH, PROT_READ | PROT_WRITE) != 0) {
        fail("no memory");
    }
    memcpy(lent + GPU_RAM_LENGTH - held, ram, held);
    if (mprotect(lent, GPU_RAM_LENGTH, PROT_READ) != 0) {
        fail("no memory");
    }
    const uint8_t *bytes = lent + GPU_RAM_LENGTH - held;
    uint64_t expected = reference_check(ram, ram_len, code_len);
    uint64_t reply = gpu_check(bytes, ram_len, code_len);
    if (reply != expected) {
        fprintf(stderr, "loading: code length %" PRIu64 ": expected answer %u at %06" PRIX64 ", got %u at %06" PRIX64 "\n",
                code_len, gpu_answer(expected), expected / 256, gpu_answer(reply), reply / 256);
        for (unsigned i = 0; i < code_len && i < GPU_RAM_LENGTH; i += 2) {
            fprintf(stderr, "%02X%02X%s", ram[i], ram[i + 1], i % 32 == 30 ? "\n" : " ");
        }
        exit(1);
    }
    cases++;
    answers[gpu_answer(reply)]++;
    return reply;
}

/* A program in the making: words from the start of RAM on. A head is an address that a jump may go to, where no register
   has to be known. */
static uint32_t end, limit;
static uint32_t heads[MOST_HEADS];
static unsigned head_count;
static uint32_t jumps[MOST_HEADS];
static unsigned jump_count;

static void put_word(uint32_t offset, uint32_t word)
{
    ram[offset] = (uint8_t)(word >> 8);
    ram[offset + 1] = (uint8_t)word;
}

static uint32_t word_at(uint32_t offset)
{
    return ram[offset] * 256u + ram[offset + 1];
}

static void emit(uint32_t opcode, uint32_t source, uint32_t destination)
{
    put_word(end, opcode * 1024 + source * 32 + destination);
    end += 2;
}

static void emit_movei(uint32_t value, uint32_t destination)
{
    emit(38, 0, destination);
    put_word(end, value & 0xFFFF);
    put_word(end + 2, value >> 16);
    end += 4;
}

/* An instruction that rules 2 to 6 ask nothing of. */
static void emit_plain(void)
{
    static const uint8_t opcodes[] = {0,  1,  2,  3,  4,  5,  6,  7,  9,  10, 11, 13, 14, 15, 16, 17, 18, 20, 21,
                                      23, 24, 25, 26, 27, 28, 29, 30, 31, 34, 35, 36, 37, 55, 56};
    static const uint8_t unary[] = {8, 12, 19, 22, 32, 33, 62};
    uint32_t destination = random_below(32);
    switch (random_below(6)) {
    case 0:
        put_word(end, NOP);
        end += 2;
        break;
    case 1:
        emit(unary[random_below(COUNT(unary))], 0, destination);
        break;
    default:
        emit(opcodes[random_below(COUNT(opcodes))], random_below(32), destination);
    }
}

/* An aligned address that a LOAD, or a STORE, may reach: in RAM, or a chip register. */
static uint32_t reachable(bool store)
{
    static const uint32_t registers[] = {GPU_FLAGS_ADDRESS, GPU_CONTROL_ADDRESS, GPU_DIVIDE_ADDRESS};
    uint32_t from = store ? limit : 0;
    if (from == GPU_RAM_LENGTH || random_below(4) == 0) {
        return registers[random_below(COUNT(registers))];
    }
    return GPU_RAM_BASE + from + 4 * random_below((GPU_RAM_LENGTH - from) / 4);
}

/* An access through what its block makes known. */
static void emit_access(void)
{
    bool store = random_below(2);
    uint32_t address = reachable(store);
    uint32_t base = 14 + random_below(2), data = random_below(14), field = random_below(32);
    uint32_t quick = field == 0 ? 32 : field;
    switch (random_below(5)) {
    case 0: /* in a register */
        emit_movei(address, data);
        emit(store ? 47 : 41, data, random_below(32));
        break;
    case 1: /* R14 or R15 plus 4 × quick n */
        emit_movei(address - 4 * quick, base);
        emit((store ? 49 : 43) + base - 14, field, random_below(32));
        break;
    case 2: /* R14 or R15 plus a register */
        emit_movei(4 * random_below(64), data);
        emit_movei(address, base);
        emit(6, 4, base); /* SUBQ 4, ADDQ 4: the address again, if nothing wraps */
        emit(2, 4, base);
        emit(35, 0, data); /* MOVEQ 0 */
        emit((store ? 60 : 58) + base - 14, data, random_below(14));
        break;
    case 3: /* a masked index, which may lie anywhere below its mask */
        if (store && limit > GPU_RAM_LENGTH / 2) {
            emit_plain();
            break;
        }
        emit_movei(0x7FC, data);
        emit(9, data, (data + 1) % 14); /* AND */
        emit_movei(GPU_RAM_BASE + GPU_RAM_LENGTH / 2, base);
        emit((store ? 60 : 58) + base - 14, (data + 1) % 14, random_below(14));
        break;
    default: /* copied, and moved by additions */
        emit_movei(address - 8, data);
        emit(34, data, (data + 1) % 14);
        emit(random_below(2) ? 2 : 3, 8, (data + 1) % 14);
        emit(store ? 47 : 41, (data + 1) % 14, random_below(32));
    }
}

/* A JR or a JUMP, whose target is chosen when all heads are known, and the instruction after it. */
static void emit_jump(bool always)
{
    uint32_t condition = always ? 0 : random_below(32);
    jumps[jump_count++] = end;
    if (random_below(2)) {
        emit(53, 0, condition);
    } else {
        uint32_t r = random_below(32);
        emit_movei(0, r);
        emit(52, r, condition);
    }
    emit_plain();
}

/* A JR reaches 15 words forward and 16 back. */
static bool in_reach(uint32_t from, uint32_t to)
{
    int32_t words = ((int32_t)to - (int32_t)from - 2) / 2;
    return words >= -16 && words <= 15;
}

static void choose_targets(void)
{
    for (unsigned n = 0; n < jump_count; n++) {
        uint32_t at = jumps[n];
        if (word_at(at) / 1024 == 53) {
            uint32_t to = at;
            for (unsigned tries = 0; tries < 64; tries++) {
                uint32_t head = heads[random_below(head_count)];
                to = in_reach(at, head) ? head : to;
            }
            put_word(at, word_at(at) | (((to - at - 2) / 2) & 31) << 5);
        } else {
            uint32_t address = GPU_RAM_BASE + heads[random_below(head_count)];
            put_word(at + 2, address & 0xFFFF);
            put_word(at + 4, address >> 16);
        }
    }
}

/* A program of `length` bytes that obeys the rules. */
static void put_program(uint32_t length)
{
    limit = length;
    end = head_count = jump_count = 0;
    while (end + 40 < length) {
        heads[head_count++] = end;
        switch (random_below(5)) {
        case 0:
            emit_jump(false);
            break;
        case 1:
        case 2:
            emit_access();
            break;
        default:
            emit_plain();
        }
    }
    while (end + 4 < length) {
        heads[head_count++] = end;
        emit_plain();
    }
    /* the end: a JR with condition 0, which may go to itself, and one more instruction */
    jumps[jump_count++] = end;
    heads[head_count++] = end;
    emit(53, 0, 0);
    emit_plain();
    choose_targets();
}

/* One word is broken: at random, or one that rules 2 to 5 look at. */
static void break_word(uint32_t length)
{
    uint32_t at = 2 * random_below(length / 2);
    switch (random_below(8)) {
    case 0:
        put_word(at, random_below(65536));
        break;
    case 1: /* another target, or another register */
        put_word(jumps[random_below(jump_count)], 53 * 1024 + random_below(1024));
        break;
    case 2:
        at = jumps[random_below(jump_count)];
        put_word(at + 2, word_at(at + 2) ^ 2 << random_below(11));
        break;
    case 3: /* what follows a jump */
        at = jumps[random_below(jump_count)];
        at += word_at(at) / 1024 == 38 ? 8 : 2;
        put_word(at, random_below(2) ? 51 * 1024 + random_below(32) : 53 * 1024 + random_below(1024));
        break;
    case 4:
        put_word(length - 4, word_at(length - 4) ^ (1 + random_below(31)));
        break;
    case 5:
        put_word(length - 4, NOP);
        break;
    case 6: /* a JUMP where there was none */
        put_word(at, 52 * 1024 + random_below(1024));
        break;
    default:
        put_word(at, word_at(at) ^ 1 << random_below(16));
    }
}

static uint32_t random_length(void)
{
    switch (random_below(8)) {
    case 0:
        return 4 * (1 + random_below(4));
    case 1:
        return GPU_RAM_LENGTH - 4 * random_below(4);
    case 2:
        return 4 * (1 + random_below(GPU_RAM_LENGTH / 4));
    default:
        return 4 * (1 + random_below(64));
    }
}

/* Steps an admitted program, one instruction a call, from any state that starts it. */
static void step_program(uint32_t length)
{
    static uint8_t memory[GPU_RAM_LENGTH], block[GPU_BLOCK_LENGTH];
    static bool start[GPU_RAM_LENGTH];
    memset(start, 0, sizeof start);
    for (uint32_t at = 0; at < length; at += word_at(at) / 1024 == 38 ? 6 : 2) {
        start[at] = true;
    }
    memcpy(memory, ram, sizeof memory);
    for (uint32_t at = length; at < GPU_RAM_LENGTH; at += 4) {
        gpu_put_long(memory, at, random_long());
    }
    for (uint32_t at = 0; at < GPU_BLOCK_LENGTH; at += 4) {
        gpu_put_long(block, at, random_long());
    }
    gpu_put_long(block, GPU_BLOCK_COUNTER, GPU_RAM_BASE);
    gpu_put_long(block, GPU_BLOCK_TARGET, 0);
    gpu_put_long(block, GPU_BLOCK_STATUS,
                 GPU_STATUS_RUNNING | (random_long() & (GPU_STATUS_Z | GPU_STATUS_C | GPU_STATUS_N | GPU_STATUS_BANK |
                                                        GPU_STATUS_DIVIDE_MODE)));
    for (unsigned n = 0; n < STEPS; n++) {
        uint64_t reply = gpu_run(memory, sizeof memory, block, sizeof block, 1);
        uint32_t offset = gpu_long(block, GPU_BLOCK_COUNTER) - GPU_RAM_BASE;
        if (gpu_answer(reply) > GPU_STOPPED || memcmp(memory, ram, length) != 0 || offset >= length || !start[offset]) {
            fprintf(stderr, "loading: an admitted program answers %u at step %u\n", gpu_answer(reply), n);
            exit(1);
        }
        steps += gpu_steps(reply);
        if (gpu_answer(reply) == GPU_STOPPED) {
            break;
        }
    }
}

static void compare_programs(uint32_t count)
{
    static uint8_t whole[GPU_RAM_LENGTH];
    for (uint32_t i = 0; i < count; i++) {
        uint32_t length = random_length();
        for (uint32_t at = 0; at < GPU_RAM_LENGTH; at += 4) {
            gpu_put_long(ram, at, random_below(4) ? 0 : random_long());
        }
        put_program(length);
        if (compare(GPU_RAM_LENGTH, length) != 0) {
            fail("a generated program does not obey the rules");
        }
        step_program(length);
        memcpy(whole, ram, sizeof whole);
        for (unsigned n = 0; n < 6; n++) {
            break_word(length);
            if (compare(GPU_RAM_LENGTH, length) == 0) {
                step_program(length);
            }
            memcpy(ram, whole, sizeof ram);
        }
    }
}

static void compare_lengths(void)
{
    static const size_t ram_lengths[] = {0, 1, 4, 4095, 4096, 4096, 4096, 4097, 8192};
    static const uint64_t code_lengths[] = {0,          1,           2,    3,    4,          5,          6,  8,
                                            4092,       4095,        4096, 4097, 4098,       4100,       16, 0x10000,
                                            0xFFFFFFFF, 0x100000004, 0x100000010, 0x8000000000000000, 0xFFFFFFFFFFFFFFFC};
    for (unsigned i = 0; i < COUNT(ram_lengths); i++) {
        for (unsigned j = 0; j < COUNT(code_lengths); j++) {
            put_program(16);
            /* lengths above RAM's are refused before a byte is read */
            compare(ram_lengths[i], code_lengths[j]);
        }
    }
}

int main(int argc, char **argv)
{
    uint64_t seed = argc > 1 ? strtoull(argv[1], NULL, 0) : 19931123;
    uint64_t programs = argc > 2 ? strtoull(argv[2], NULL, 0) : 40000;
    random_state = seed == 0 ? 1 : seed;
    prepare();
    compare_lengths();
    for (uint64_t done = 0; done < programs;) {
        uint64_t some = programs - done < PROGRAMS_PER_LINE ? programs - done : PROGRAMS_PER_LINE;
        compare_programs((uint32_t)some);
        done += some;
        printf("%" PRIu64 " of %" PRIu64 " programs: %" PRIu64 " checks so far\n", done, programs, cases);
        fflush(stdout);
    }
    printf("checks by answer:");
    for (unsigned n = 0; n < COUNT(answers); n++) {
        if (answers[n] != 0) {
            printf(" %u: %" PRIu64, n, answers[n]);
        }
    }
    printf("\n");
    for (unsigned n = 21; n <= 26; n++) {
        if (answers[n] < LEAST_OF_EACH) {
            fail("a rule is broken too rarely");
        }
    }
    printf("loading: %" PRIu64 " checks agree, and %" PRIu64 " steps of admitted programs are safe\n", cases, steps);
    return 0;
}
