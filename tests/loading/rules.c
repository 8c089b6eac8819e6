/* The six loading rules, written from paper 01 and from nothing of the proved code, to be read beside the paper. Quoted
   sentences are the paper's. */

#include "rules.h"

#include <stdbool.h>
#include <string.h>

#include "gpu.h"

enum { MOST_INSTRUCTIONS = GPU_RAM_LENGTH / 2 };

/* An instruction as rule 1 reads it: its address, its three fields, its length in bytes, and the long of a MOVEI. */
struct instruction {
    uint32_t address;
    unsigned opcode, source, destination;
    uint32_t bytes;
    uint32_t value;
};

struct program {
    const uint8_t *ram;
    uint32_t length;
    struct instruction list[MOST_INSTRUCTIONS];
    unsigned count;
    /* by offset: instruction starts, and targets of rules 2 and 3 */
    bool start[GPU_RAM_LENGTH], target[GPU_RAM_LENGTH];
};

/* "each active register has a range and a yes or no for 'multiple of 4'" */
struct range {
    uint32_t low, high;
    bool multiple;
};

static uint64_t reply(unsigned answer, uint32_t address)
{
    return answer + (uint64_t)256 * address;
}

static unsigned word_at(const struct program *p, uint32_t offset)
{
    return p->ram[offset] * 256u + p->ram[offset + 1];
}

/* "Opcodes 39, 40, 42, 45, 46, 48, 54 and 63 are not built. The source field must be zero for 8, 12, 19, 22, 32, 33, 38,
   51 and 62, and all ten bits for 57" */
static bool is_built(unsigned word)
{
    unsigned opcode = word / 1024, source = word / 32 % 32;
    switch (opcode) {
    case 39: case 40: case 42: case 45: case 46: case 48: case 54: case 63:
        return false;
    case 8: case 12: case 19: case 22: case 32: case 33: case 38: case 51: case 62:
        return source == 0;
    case 57:
        return word % 1024 == 0;
    default:
        return true;
    }
}

/* Rule 1: "Read straight through, all instructions are built and the last ends exactly at C." Gives the address of the
   first that isn't so, or 0. */
static uint32_t read_program(struct program *p)
{
    uint32_t offset = 0;
    p->count = 0;
    memset(p->start, 0, sizeof p->start);
    while (offset < p->length) {
        unsigned word = word_at(p, offset);
        bool is_movei = word / 1024 == 38;
        uint32_t bytes = is_movei ? 6 : 2;
        if (!is_built(word) || offset + bytes > p->length) {
            return GPU_RAM_BASE + offset;
        }
        struct instruction *i = &p->list[p->count++];
        i->address = GPU_RAM_BASE + offset;
        p->start[offset] = true;
        i->opcode = word / 1024;
        i->source = word / 32 % 32;
        i->destination = word % 32;
        i->bytes = bytes;
        i->value = is_movei ? word_at(p, offset + 2) | (uint32_t)word_at(p, offset + 4) << 16 : 0;
        offset += bytes;
    }
    return 0;
}

static bool is_jr(const struct instruction *i)
{
    return i->opcode == 53;
}

static bool is_jump(const struct instruction *i)
{
    return i->opcode == 52;
}

static bool is_start(const struct program *p, uint32_t address)
{
    return address - GPU_RAM_BASE < GPU_RAM_LENGTH && p->start[address - GPU_RAM_BASE];
}

/* "target = own address + 2 + 2 × signed field" */
static uint32_t jr_target(const struct instruction *i)
{
    int32_t field = i->source < 16 ? (int32_t)i->source : (int32_t)i->source - 32;
    return i->address + 2 + 2 * (uint32_t)field;
}

/* Whether instruction n is a JUMP that "directly follows a MOVEI into its own register". */
static bool follows_movei(const struct program *p, unsigned n)
{
    return is_jump(&p->list[n]) && n > 0 && p->list[n - 1].opcode == 38 &&
           p->list[n - 1].destination == p->list[n].source;
}

static void note_target(struct program *p, uint32_t address)
{
    if (address - GPU_RAM_BASE < GPU_RAM_LENGTH) {
        p->target[address - GPU_RAM_BASE] = true;
    }
}

/* The targets of rules 2 and 3. */
static void note_targets(struct program *p)
{
    memset(p->target, 0, sizeof p->target);
    for (unsigned n = 0; n < p->count; n++) {
        if (is_jr(&p->list[n])) {
            note_target(p, jr_target(&p->list[n]));
        } else if (follows_movei(p, n)) {
            note_target(p, p->list[n - 1].value);
        }
    }
}

static bool is_target(const struct program *p, const struct instruction *i)
{
    return p->target[i->address - GPU_RAM_BASE];
}

static bool obeys_2(const struct program *p, unsigned n)
{
    return !is_jr(&p->list[n]) || is_start(p, jr_target(&p->list[n]));
}

static bool obeys_3(const struct program *p, unsigned n)
{
    if (!is_jump(&p->list[n])) {
        return true;
    }
    return follows_movei(p, n) && is_start(p, p->list[n - 1].value) && !is_target(p, &p->list[n]);
}

/* "Each JR and JUMP has an instruction after it, which is not JR, JUMP, MOVEI or MOVE PC." */
static bool obeys_4(const struct program *p, unsigned n)
{
    if (!is_jr(&p->list[n]) && !is_jump(&p->list[n])) {
        return true;
    }
    if (n + 1 == p->count) {
        return false;
    }
    unsigned after = p->list[n + 1].opcode;
    return after != 53 && after != 52 && after != 38 && after != 51;
}

/* "The next to last instruction is a JR or JUMP with condition 0; the last is no target." */
static bool obeys_5(const struct program *p, unsigned n)
{
    if (n + 1 != p->count) {
        return true;
    }
    if (n == 0) {
        return false;
    }
    const struct instruction *before = &p->list[n - 1];
    return (is_jr(before) || is_jump(before)) && before->destination == 0 && !is_target(p, &p->list[n]);
}

/* "Known" in rule 6. */

static const struct range full = {0, UINT32_MAX, false};

static struct range exactly(uint32_t value)
{
    return (struct range){value, value, value % 4 == 0};
}

/* "ends added, or the full range if the upper sum passes 2^32−1; yes if both parts are" */
static struct range sum(struct range x, struct range y)
{
    bool passes = (uint64_t)x.high + y.high > UINT32_MAX;
    return (struct range){passes ? 0 : x.low + y.low, passes ? UINT32_MAX : x.high + y.high, x.multiple && y.multiple};
}

/* "ends less n if the lower end is at least n, else full; yes if both are" */
static struct range less(struct range x, uint32_t n)
{
    bool fits = x.low >= n;
    return (struct range){fits ? x.low - n : 0, fits ? x.high - n : UINT32_MAX, x.multiple && n % 4 == 0};
}

/* "AND: from 0 to the smaller upper end, yes if either is yes." */
static struct range and(struct range x, struct range y)
{
    return (struct range){0, x.high < y.high ? x.high : y.high, x.multiple || y.multiple};
}

static uint32_t quick(unsigned field)
{
    return field == 0 ? 32 : field;
}

static bool is_load(const struct instruction *i)
{
    return i->opcode == 41 || i->opcode == 43 || i->opcode == 44 || i->opcode == 58 || i->opcode == 59;
}

static bool is_store(const struct instruction *i)
{
    return i->opcode == 47 || i->opcode == 49 || i->opcode == 50 || i->opcode == 60 || i->opcode == 61;
}

/* "address in a register, or R14 or R15 plus 4 × quick n or plus a register" */
static struct range address_range(const struct instruction *i, const struct range *known)
{
    switch (i->opcode) {
    case 43: case 49:
        return sum(known[14], exactly(4 * quick(i->source)));
    case 44: case 50:
        return sum(known[15], exactly(4 * quick(i->source)));
    case 58: case 60:
        return sum(known[14], known[i->source]);
    case 59: case 61:
        return sum(known[15], known[i->source]);
    default:
        return known[i->source];
    }
}

static bool is_exactly(struct range x, uint32_t value)
{
    return x.low == value && x.high == value;
}

/* "Every access is known to be a multiple of 4 and either, by both ends of its range, inside the allowed RAM (all of it
   for LOAD, the data window for STORE) or one exact built register." */
static bool obeys_6(const struct program *p, const struct instruction *i, const struct range *known)
{
    if (!is_load(i) && !is_store(i)) {
        return true;
    }
    struct range x = address_range(i, known);
    uint32_t from = is_load(i) ? GPU_RAM_BASE : GPU_RAM_BASE + p->length;
    bool inside = x.low >= from && x.high < GPU_RAM_BASE + GPU_RAM_LENGTH;
    return x.multiple && (inside || is_exactly(x, GPU_FLAGS_ADDRESS) || is_exactly(x, GPU_CONTROL_ADDRESS) ||
                          is_exactly(x, GPU_DIVIDE_ADDRESS));
}

static void forget(struct range *known)
{
    for (unsigned r = 0; r < 32; r++) {
        known[r] = full;
    }
}

/* What an instruction makes known. CMP, CMPQ, BTST, IMULTN, IMACN, NOP, the jumps, the stores and MOVETA write no register
   of the active bank. */
static void learn(const struct instruction *i, struct range *known)
{
    struct range *d = &known[i->destination];
    switch (i->opcode) {
    case 0: /* ADD */
        *d = sum(*d, known[i->source]);
        break;
    case 2: case 3: /* ADDQ, ADDQT */
        *d = sum(*d, exactly(quick(i->source)));
        break;
    case 6: case 7: /* SUBQ, SUBQT */
        *d = less(*d, quick(i->source));
        break;
    case 9: /* AND */
        *d = and(*d, known[i->source]);
        break;
    case 24: /* SHLQ: "by 2 or more: full, yes" */
        *d = full;
        d->multiple = quick(i->source) >= 2;
        break;
    case 34: /* MOVE */
        *d = known[i->source];
        break;
    case 35: /* MOVEQ */
        *d = exactly(i->source);
        break;
    case 38: /* MOVEI */
        *d = exactly(i->value);
        break;
    case 13: case 18: case 20: case 30: case 31: case 36: case 52: case 53: case 57:
        break;
    case 47: case 49: case 50: case 60: case 61:
        if (is_exactly(address_range(i, known), GPU_FLAGS_ADDRESS)) {
            forget(known);
        }
        break;
    default: /* "Any other write to a register: full, no." */
        *d = full;
    }
}

uint64_t reference_check(const uint8_t *ram, size_t ram_len, uint64_t code_len)
{
    static struct program p;
    static bool (*const rules[])(const struct program *, unsigned) = {obeys_2, obeys_3, obeys_4, obeys_5};
    struct range known[32];

    if (ram_len != GPU_RAM_LENGTH) {
        return reply(31, 0);
    }
    if (code_len < 4 || code_len > GPU_RAM_LENGTH || code_len % 4 != 0) {
        return reply(33, 0);
    }
    p.ram = ram;
    p.length = (uint32_t)code_len;
    uint32_t broken = read_program(&p);
    if (broken != 0) {
        return reply(21, broken);
    }
    note_targets(&p);
    for (unsigned rule = 0; rule < 4; rule++) {
        for (unsigned n = 0; n < p.count; n++) {
            if (!rules[rule](&p, n)) {
                return reply(22 + rule, p.list[n].address);
            }
        }
    }
    forget(known);
    for (unsigned n = 0; n < p.count; n++) {
        if (is_target(&p, &p.list[n])) {
            forget(known);
        }
        if (!obeys_6(&p, &p.list[n], known)) {
            return reply(26, p.list[n].address);
        }
        learn(&p.list[n], known);
    }
    return reply(0, 0);
}
