/* The whole machine, written from paper 01 and from nothing of the proved code, to be read beside the paper.
   Quoted sentences are the paper's. The names of lengths, bits and answers are those of gpu.h, so that the
   differential test holds the header to the archive too. */

#include "reference.h"

#include <stdbool.h>

#include "gpu.h"

/* "two banks of 32 registers of 32 bits; which bank is active; flags Z, N, C; program counter; the pending jump target,
   if any; remainder; divide mode; 32-bit accumulator; running or stopped" */
struct machine {
    uint8_t *ram;
    uint32_t bank[2][32];
    unsigned active;
    bool z, n, c;
    uint32_t counter;
    bool pending;
    uint32_t target;
    uint32_t remainder;
    bool divide_mode;
    uint32_t accumulator;
    bool running;
};

/* "Six bits opcode, five source, five destination" */
struct word {
    unsigned opcode, source, destination;
};

/* An instruction answers NO_FAULT or one of the faults 11 to 15. What it changed before a fault is undone by `step`. */
enum { NO_FAULT = 0 };

typedef int instruction(struct machine *m, struct word w);

/* Registers. */

static uint32_t register_of(const struct machine *m, unsigned field)
{
    return m->bank[m->active][field];
}

static int keep(struct machine *m, unsigned field, uint32_t value)
{
    m->bank[m->active][field] = value;
    return NO_FAULT;
}

static uint32_t s_of(const struct machine *m, struct word w)
{
    return register_of(m, w.source);
}

static uint32_t d_of(const struct machine *m, struct word w)
{
    return register_of(m, w.destination);
}

/* Fields and numbers. */

static bool negative(uint32_t x)
{
    return x >= 0x80000000u;
}

static int64_t as_signed(uint32_t x)
{
    return negative(x) ? (int64_t)x - 0x100000000 : (int64_t)x;
}

static int32_t low_16_signed(uint32_t x)
{
    int32_t low = (int32_t)(x % 0x10000);
    return low >= 0x8000 ? low - 0x10000 : low;
}

/* "Quick n […] means a field where 0 is 32." */
static unsigned quick(unsigned field)
{
    return field == 0 ? 32 : field;
}

static int signed_field(unsigned field)
{
    return field >= 16 ? (int)field - 32 : (int)field;
}

/* Flags. */

/* "Z and N follow the result" */
static void set_z_n(struct machine *m, uint32_t result)
{
    m->z = result == 0;
    m->n = negative(result);
}

/* "an undefined C is unchanged" */
static int write_result(struct machine *m, struct word w, uint32_t result)
{
    set_z_n(m, result);
    return keep(m, w.destination, result);
}

static int write_result_and_c(struct machine *m, struct word w, uint32_t result, bool carry)
{
    m->c = carry;
    return write_result(m, w, result);
}

/* "ADD, ADDC, ADDQ: C is carry out." */

static int add_numbers(struct machine *m, struct word w, uint32_t number, bool carry_in)
{
    uint64_t sum = (uint64_t)d_of(m, w) + number + carry_in;
    return write_result_and_c(m, w, (uint32_t)sum, sum > 0xFFFFFFFFu);
}

static int add(struct machine *m, struct word w)
{
    return add_numbers(m, w, s_of(m, w), false);
}

static int addc(struct machine *m, struct word w)
{
    return add_numbers(m, w, s_of(m, w), m->c);
}

static int addq(struct machine *m, struct word w)
{
    return add_numbers(m, w, quick(w.source), false);
}

/* "SUB d−s, SUBC d−s−C, SUBQ: C is borrow." */

static int subtract_numbers(struct machine *m, struct word w, uint32_t number, bool borrow_in)
{
    int64_t difference = (int64_t)d_of(m, w) - number - borrow_in;
    return write_result_and_c(m, w, (uint32_t)difference, difference < 0);
}

static int sub(struct machine *m, struct word w)
{
    return subtract_numbers(m, w, s_of(m, w), false);
}

static int subc(struct machine *m, struct word w)
{
    return subtract_numbers(m, w, s_of(m, w), m->c);
}

static int subq(struct machine *m, struct word w)
{
    return subtract_numbers(m, w, quick(w.source), false);
}

/* "ADDQT, SUBQT touch no flag." */

static int addqt(struct machine *m, struct word w)
{
    return keep(m, w.destination, d_of(m, w) + quick(w.source));
}

static int subqt(struct machine *m, struct word w)
{
    return keep(m, w.destination, d_of(m, w) - quick(w.source));
}

/* "NEG 0−d, C borrow." */
static int neg(struct machine *m, struct word w)
{
    uint32_t d = d_of(m, w);
    return write_result_and_c(m, w, 0 - d, d != 0);
}

/* "ABS: C if d was negative; N clear except for 80000000h, which stays, with N and C set" */
static int absolute(struct machine *m, struct word w)
{
    uint32_t d = d_of(m, w);
    return write_result_and_c(m, w, negative(d) ? 0 - d : d, negative(d));
}

/* "CMP d−s, flags only." */

static int compare_numbers(struct machine *m, struct word w, uint32_t number)
{
    uint32_t d = d_of(m, w);
    set_z_n(m, d - number);
    m->c = d < number;
    return NO_FAULT;
}

static int cmp(struct machine *m, struct word w)
{
    return compare_numbers(m, w, s_of(m, w));
}

/* "CMPQ: immediate −16 to +15 as the signed field […], C is borrow." */
static int cmpq(struct machine *m, struct word w)
{
    return compare_numbers(m, w, (uint32_t)signed_field(w.source));
}

/* "AND, OR, XOR, NOT." */

static int and(struct machine *m, struct word w)
{
    return write_result(m, w, d_of(m, w) & s_of(m, w));
}

static int or(struct machine *m, struct word w)
{
    return write_result(m, w, d_of(m, w) | s_of(m, w));
}

static int xor(struct machine *m, struct word w)
{
    return write_result(m, w, d_of(m, w) ^ s_of(m, w));
}

static int not(struct machine *m, struct word w)
{
    return write_result(m, w, ~d_of(m, w));
}

/* "BTST q: Z if the bit is zero, N and C unchanged. BSET, BCLR." */

static uint32_t bit(unsigned number)
{
    return (uint32_t)1 << number;
}

static int btst(struct machine *m, struct word w)
{
    m->z = (d_of(m, w) & bit(w.source)) == 0;
    return NO_FAULT;
}

static int bset(struct machine *m, struct word w)
{
    return write_result(m, w, d_of(m, w) | bit(w.source));
}

static int bclr(struct machine *m, struct word w)
{
    return write_result(m, w, d_of(m, w) & ~bit(w.source));
}

/* "MULT, IMULT: low 16 bits, unsigned or signed." */

static int mult(struct machine *m, struct word w)
{
    return write_result(m, w, (d_of(m, w) % 0x10000) * (s_of(m, w) % 0x10000));
}

static uint32_t signed_product(const struct machine *m, struct word w)
{
    return (uint32_t)(low_16_signed(d_of(m, w)) * low_16_signed(s_of(m, w)));
}

static int imult(struct machine *m, struct word w)
{
    return write_result(m, w, signed_product(m, w));
}

/* "IMULTN: the same signed product and flags, into the accumulator only." */
static int imultn(struct machine *m, struct word w)
{
    m->accumulator = signed_product(m, w);
    set_z_n(m, m->accumulator);
    return NO_FAULT;
}

/* "IMACN adds that product there; RESMAC copies it to d; both touch no flag" */

static int imacn(struct machine *m, struct word w)
{
    m->accumulator += signed_product(m, w);
    return NO_FAULT;
}

static int resmac(struct machine *m, struct word w)
{
    return keep(m, w.destination, m->accumulator);
}

/* "DIV, no flag: d/s unsigned; in divide mode 1, the low 32 bits of (d × 65,536)/s. Remainder of that division kept.
   s = 0: quotient FFFFFFFFh, remainder d" */
static int divide(struct machine *m, struct word w)
{
    uint64_t d = d_of(m, w);
    uint64_t s = s_of(m, w);
    uint64_t dividend = m->divide_mode ? d * 65536 : d;
    if (s == 0) {
        m->remainder = (uint32_t)d;
        return keep(m, w.destination, 0xFFFFFFFFu);
    }
    m->remainder = (uint32_t)(dividend % s);
    return keep(m, w.destination, (uint32_t)(dividend / s));
}

/* Shifts. "32 or more places give 0", "32 or more right give all sign bits". */

static uint32_t shifted_left(uint32_t x, uint64_t places)
{
    return places >= 32 ? 0 : x << places;
}

static uint32_t shifted_right(uint32_t x, uint64_t places)
{
    return places >= 32 ? 0 : x >> places;
}

static uint32_t shifted_right_with_sign(uint32_t x, uint64_t places)
{
    return negative(x) ? ~shifted_right(~x, places) : shifted_right(x, places);
}

/* "C is the old bit 0 for right, old bit 31 for left." */

static int shift_left(struct machine *m, struct word w, uint64_t places)
{
    uint32_t d = d_of(m, w);
    return write_result_and_c(m, w, shifted_left(d, places), negative(d));
}

static int shift_right(struct machine *m, struct word w, uint64_t places)
{
    uint32_t d = d_of(m, w);
    return write_result_and_c(m, w, shifted_right(d, places), d % 2 == 1);
}

static int shift_right_with_sign(struct machine *m, struct word w, uint64_t places)
{
    uint32_t d = d_of(m, w);
    return write_result_and_c(m, w, shifted_right_with_sign(d, places), d % 2 == 1);
}

/* "SH: s signed, right if 0 or more, left if negative" */
static int sh(struct machine *m, struct word w)
{
    int64_t places = as_signed(s_of(m, w));
    return places < 0 ? shift_left(m, w, (uint64_t)-places) : shift_right(m, w, (uint64_t)places);
}

/* "SHA: the same with sign fill" */
static int sha(struct machine *m, struct word w)
{
    int64_t places = as_signed(s_of(m, w));
    return places < 0 ? shift_left(m, w, (uint64_t)-places) : shift_right_with_sign(m, w, (uint64_t)places);
}

/* "SHLQ left, SHRQ right, SHARQ right with sign fill, each by quick n." */

static int shlq(struct machine *m, struct word w)
{
    return shift_left(m, w, quick(w.source));
}

static int shrq(struct machine *m, struct word w)
{
    return shift_right(m, w, quick(w.source));
}

static int sharq(struct machine *m, struct word w)
{
    return shift_right_with_sign(m, w, quick(w.source));
}

/* "ROR by the low five bits of s, RORQ by quick n; C is old bit 31." */

static int rotate_right(struct machine *m, struct word w, unsigned places)
{
    uint32_t d = d_of(m, w);
    return write_result_and_c(m, w, shifted_right(d, places) | shifted_left(d, 32 - places), negative(d));
}

static int ror(struct machine *m, struct word w)
{
    return rotate_right(m, w, s_of(m, w) % 32);
}

static int rorq(struct machine *m, struct word w)
{
    return rotate_right(m, w, quick(w.source));
}

/* "SAT8, SAT16, SAT24: the signed value held to 0 to 255, 65,535 or 16,777,215; N clear." */

static int saturate(struct machine *m, struct word w, uint32_t top)
{
    uint32_t d = d_of(m, w);
    if (negative(d)) {
        return write_result(m, w, 0);
    }
    return write_result(m, w, d > top ? top : d);
}

static int sat8(struct machine *m, struct word w)
{
    return saturate(m, w, 255);
}

static int sat16(struct machine *m, struct word w)
{
    return saturate(m, w, 65535);
}

static int sat24(struct machine *m, struct word w)
{
    return saturate(m, w, 16777215);
}

/* "MTOI: bits 0 to 22 kept, bits 23 to 31 all equal to bit 31" */
static int mtoi(struct machine *m, struct word w)
{
    uint32_t s = s_of(m, w);
    return write_result(m, w, s % 0x800000 + (negative(s) ? 0xFF800000u : 0));
}

/* "NORMI: position of the highest one less 22, and 0 for 0" */
static int normi(struct machine *m, struct word w)
{
    uint32_t s = s_of(m, w);
    int position = 0;
    if (s == 0) {
        return write_result(m, w, 0);
    }
    while (s > 1) {
        s /= 2;
        position++;
    }
    return write_result(m, w, (uint32_t)(position - 22));
}

/* "MOVE, MOVEQ 0 to 31, MOVETA, MOVEFA, MOVEI, NOP: no flag." */

static int move(struct machine *m, struct word w)
{
    return keep(m, w.destination, s_of(m, w));
}

static int moveq(struct machine *m, struct word w)
{
    return keep(m, w.destination, w.source);
}

static int moveta(struct machine *m, struct word w)
{
    m->bank[1 - m->active][w.destination] = s_of(m, w);
    return NO_FAULT;
}

static int movefa(struct machine *m, struct word w)
{
    return keep(m, w.destination, m->bank[1 - m->active][w.source]);
}

static int nop(struct machine *m, struct word w)
{
    (void)m;
    (void)w;
    return NO_FAULT;
}

/* "MOVE PC gives its own address" */
static int move_pc(struct machine *m, struct word w)
{
    return keep(m, w.destination, m->counter);
}

/* Local RAM. "4,096 lent bytes at F03000h to F03FFFh, longs and words high byte first" */

static bool in_ram(uint32_t address, uint32_t length)
{
    return address >= GPU_RAM_BASE && (uint64_t)address + length <= GPU_RAM_BASE + GPU_RAM_LENGTH;
}

/* "counter odd, or instruction not wholly in local RAM" */
static int fetch(const struct machine *m, uint32_t address, uint32_t *word)
{
    if (address % 2 != 0 || !in_ram(address, 2)) {
        return GPU_COUNTER_OUTSIDE;
    }
    const uint8_t *bytes = m->ram + (address - GPU_RAM_BASE);
    *word = bytes[0] * 256u + bytes[1];
    return NO_FAULT;
}

/* "MOVEI is followed by the low word, then the high word." */
static int movei(struct machine *m, struct word w)
{
    uint32_t low, high;
    if (fetch(m, m->counter + 2, &low) || fetch(m, m->counter + 4, &high)) {
        return GPU_COUNTER_OUTSIDE;
    }
    return keep(m, w.destination, high * 0x10000 + low);
}

/* "F02100h gives and takes Z, C, N (bits 0, 1, 2) and bank (bit 14), other bits read 0 and are ignored." */

static uint32_t read_flags(const struct machine *m)
{
    return m->z * bit(0) + m->c * bit(1) + m->n * bit(2) + m->active * bit(14);
}

static void write_flags(struct machine *m, uint32_t value)
{
    m->z = (value & bit(0)) != 0;
    m->c = (value & bit(1)) != 0;
    m->n = (value & bit(2)) != 0;
    m->active = (value & bit(14)) != 0;
}

/* "F02114h reads 2001h; a write with bit 0 zero stops the machine after that step." */
static void write_control(struct machine *m, uint32_t value)
{
    if ((value & bit(0)) == 0) {
        m->running = false;
    }
}

/* "address not a multiple of 4", "address neither in local RAM nor a built register" */

static int read_long(const struct machine *m, uint32_t address, uint32_t *value)
{
    if (address % 4 != 0) {
        return GPU_ADDRESS_MISALIGNED;
    }
    if (in_ram(address, 4)) {
        *value = gpu_long(m->ram, address - GPU_RAM_BASE);
        return NO_FAULT;
    }
    switch (address) {
    case GPU_FLAGS_ADDRESS:
        *value = read_flags(m);
        return NO_FAULT;
    case GPU_CONTROL_ADDRESS:
        *value = 0x2001;
        return NO_FAULT;
    case GPU_DIVIDE_ADDRESS:
        *value = m->remainder;
        return NO_FAULT;
    default:
        return GPU_ADDRESS_OUTSIDE;
    }
}

static int write_long(struct machine *m, uint32_t address, uint32_t value)
{
    if (address % 4 != 0) {
        return GPU_ADDRESS_MISALIGNED;
    }
    if (in_ram(address, 4)) {
        gpu_put_long(m->ram, address - GPU_RAM_BASE, value);
        return NO_FAULT;
    }
    switch (address) {
    case GPU_FLAGS_ADDRESS:
        write_flags(m, value);
        return NO_FAULT;
    case GPU_CONTROL_ADDRESS:
        write_control(m, value);
        return NO_FAULT;
    case GPU_DIVIDE_ADDRESS:
        m->divide_mode = (value & bit(0)) != 0;
        return NO_FAULT;
    default:
        return GPU_ADDRESS_OUTSIDE;
    }
}

/* "LOAD, STORE: address in a register, or R14 or R15 plus 4 × quick n or plus a register, modulo 2^32; no flag." */

static uint32_t at_register(const struct machine *m, struct word w)
{
    return s_of(m, w);
}

static uint32_t at_base_and_quick(const struct machine *m, struct word w, unsigned base)
{
    return register_of(m, base) + 4 * quick(w.source);
}

static uint32_t at_base_and_register(const struct machine *m, struct word w, unsigned base)
{
    return register_of(m, base) + s_of(m, w);
}

static int load_from(struct machine *m, struct word w, uint32_t address)
{
    uint32_t value;
    int fault = read_long(m, address, &value);
    return fault ? fault : keep(m, w.destination, value);
}

static int store_to(struct machine *m, struct word w, uint32_t address)
{
    return write_long(m, address, d_of(m, w));
}

static int load(struct machine *m, struct word w)
{
    return load_from(m, w, at_register(m, w));
}

static int load_r14_quick(struct machine *m, struct word w)
{
    return load_from(m, w, at_base_and_quick(m, w, 14));
}

static int load_r15_quick(struct machine *m, struct word w)
{
    return load_from(m, w, at_base_and_quick(m, w, 15));
}

static int load_r14_register(struct machine *m, struct word w)
{
    return load_from(m, w, at_base_and_register(m, w, 14));
}

static int load_r15_register(struct machine *m, struct word w)
{
    return load_from(m, w, at_base_and_register(m, w, 15));
}

static int store(struct machine *m, struct word w)
{
    return store_to(m, w, at_register(m, w));
}

static int store_r14_quick(struct machine *m, struct word w)
{
    return store_to(m, w, at_base_and_quick(m, w, 14));
}

static int store_r15_quick(struct machine *m, struct word w)
{
    return store_to(m, w, at_base_and_quick(m, w, 15));
}

static int store_r14_register(struct machine *m, struct word w)
{
    return store_to(m, w, at_base_and_register(m, w, 14));
}

static int store_r15_register(struct machine *m, struct word w)
{
    return store_to(m, w, at_base_and_register(m, w, 15));
}

/* "Condition bits: 0 needs Z clear, 1 needs Z set, 2 needs the chosen flag clear, 3 needs it set; the chosen flag is N
   if bit 4 is one, else C." */
static bool condition_holds(const struct machine *m, unsigned condition)
{
    bool chosen = (condition & 16) ? m->n : m->c;
    if ((condition & 1) && m->z) {
        return false;
    }
    if ((condition & 2) && !m->z) {
        return false;
    }
    if ((condition & 4) && chosen) {
        return false;
    }
    if ((condition & 8) && !chosen) {
        return false;
    }
    return true;
}

/* "A taken jump makes the target pending" */
static int jump_if(struct machine *m, unsigned condition, uint32_t target)
{
    if (condition_holds(m, condition)) {
        m->pending = true;
        m->target = target;
    }
    return NO_FAULT;
}

/* "JUMP: register content at that moment." */
static int jump(struct machine *m, struct word w)
{
    return jump_if(m, w.destination, s_of(m, w));
}

/* "JR: target = own address + 2 + 2 × signed field." */
static int jr(struct machine *m, struct word w)
{
    return jump_if(m, w.destination, m->counter + 2 + 2 * (uint32_t)signed_field(w.source));
}

/* "The source field must be zero for 8, 12, 19, 22, 32, 33, 38, 51 and 62, and all ten bits for 57; else the word is
   not built." */
enum fields { BOTH, ONE, NONE };

struct row {
    instruction *execute;
    enum fields fields;
};

/* The opcodes of source document 001, section 5.0. "Opcodes 39, 40, 42, 45, 46, 48, 54 and 63 are not built." */
static const struct row rows[64] = {
    [0] = {add, BOTH},
    [1] = {addc, BOTH},
    [2] = {addq, BOTH},
    [3] = {addqt, BOTH},
    [4] = {sub, BOTH},
    [5] = {subc, BOTH},
    [6] = {subq, BOTH},
    [7] = {subqt, BOTH},
    [8] = {neg, ONE},
    [9] = {and, BOTH},
    [10] = {or, BOTH},
    [11] = {xor, BOTH},
    [12] = {not, ONE},
    [13] = {btst, BOTH},
    [14] = {bset, BOTH},
    [15] = {bclr, BOTH},
    [16] = {mult, BOTH},
    [17] = {imult, BOTH},
    [18] = {imultn, BOTH},
    [19] = {resmac, ONE},
    [20] = {imacn, BOTH},
    [21] = {divide, BOTH},
    [22] = {absolute, ONE},
    [23] = {sh, BOTH},
    [24] = {shlq, BOTH},
    [25] = {shrq, BOTH},
    [26] = {sha, BOTH},
    [27] = {sharq, BOTH},
    [28] = {ror, BOTH},
    [29] = {rorq, BOTH},
    [30] = {cmp, BOTH},
    [31] = {cmpq, BOTH},
    [32] = {sat8, ONE},
    [33] = {sat16, ONE},
    [34] = {move, BOTH},
    [35] = {moveq, BOTH},
    [36] = {moveta, BOTH},
    [37] = {movefa, BOTH},
    [38] = {movei, ONE},
    [41] = {load, BOTH},
    [43] = {load_r14_quick, BOTH},
    [44] = {load_r15_quick, BOTH},
    [47] = {store, BOTH},
    [49] = {store_r14_quick, BOTH},
    [50] = {store_r15_quick, BOTH},
    [51] = {move_pc, ONE},
    [52] = {jump, BOTH},
    [53] = {jr, BOTH},
    [55] = {mtoi, BOTH},
    [56] = {normi, BOTH},
    [57] = {nop, NONE},
    [58] = {load_r14_register, BOTH},
    [59] = {load_r15_register, BOTH},
    [60] = {store_r14_register, BOTH},
    [61] = {store_r15_register, BOTH},
    [62] = {sat24, ONE},
};

static struct word fields_of(uint32_t word)
{
    return (struct word){word / 1024, word / 32 % 32, word % 32};
}

static bool is_built(struct word w)
{
    const struct row *row = &rows[w.opcode];
    if (row->execute == NULL) {
        return false;
    }
    switch (row->fields) {
    case ONE:
        return w.source == 0;
    case NONE:
        return w.source == 0 && w.destination == 0;
    default:
        return true;
    }
}

/* "JR, JUMP, MOVEI or MOVE PC while a jump is pending" */
static bool is_barred_while_pending(struct word w)
{
    instruction *execute = rows[w.opcode].execute;
    return execute == jr || execute == jump || execute == movei || execute == move_pc;
}

static uint32_t length_of(struct word w)
{
    return rows[w.opcode].execute == movei ? 6 : 2;
}

/* "the next instruction runs, then the counter becomes the target" */
static void move_counter(struct machine *m, bool landing, uint32_t length)
{
    if (landing) {
        m->counter = m->target;
        m->target = 0;
        m->pending = false;
    } else {
        m->counter += length;
    }
}

/* "For a step: 31, stopped, 12 for the first word, 11, 15, 12 for the rest, 13, 14." The length and "stopped" are seen
   to before; the last three come from the instruction itself. */
static int step(struct machine *m)
{
    uint32_t word;
    int fault = fetch(m, m->counter, &word);
    if (fault) {
        return fault;
    }
    struct word w = fields_of(word);
    if (!is_built(w)) {
        return GPU_WORD_NOT_BUILT;
    }
    if (m->pending && is_barred_while_pending(w)) {
        return GPU_JUMP_IS_PENDING;
    }
    struct machine before = *m;
    fault = rows[w.opcode].execute(m, w);
    if (fault) {
        *m = before;
        return fault;
    }
    move_counter(m, before.pending, length_of(w));
    return NO_FAULT;
}

/* "A fault is not counted as a step. A stop on the last budgeted step gives 1; a fault beyond the budget is not met.
   Budget 0 gives 0 or, when stopped, 1." */
static int run(struct machine *m, uint64_t budget, uint64_t *steps)
{
    *steps = 0;
    for (;;) {
        if (!m->running) {
            return GPU_STOPPED;
        }
        if (*steps == budget) {
            return GPU_BUDGET_SPENT;
        }
        int fault = step(m);
        if (fault) {
            return fault;
        }
        ++*steps;
    }
}

/* "69 longs, high byte first. Bank 0, bank 1, program counter, pending target, remainder, accumulator, status." */

/* "Other bits must be zero, and the target is zero if none is pending." */
static bool is_block_right(const uint8_t *block)
{
    const uint32_t all = GPU_STATUS_Z | GPU_STATUS_C | GPU_STATUS_N | GPU_STATUS_BANK | GPU_STATUS_RUNNING |
                         GPU_STATUS_PENDING | GPU_STATUS_DIVIDE_MODE;
    uint32_t status = gpu_long(block, GPU_BLOCK_STATUS);
    uint32_t target = gpu_long(block, GPU_BLOCK_TARGET);
    return (status & ~all) == 0 && ((status & GPU_STATUS_PENDING) != 0 || target == 0);
}

static struct machine machine_from(const uint8_t *block, uint8_t *ram)
{
    struct machine m;
    uint32_t status = gpu_long(block, GPU_BLOCK_STATUS);
    for (unsigned i = 0; i < 32; i++) {
        m.bank[0][i] = gpu_long(block, GPU_BLOCK_BANK0 + 4 * i);
        m.bank[1][i] = gpu_long(block, GPU_BLOCK_BANK1 + 4 * i);
    }
    m.ram = ram;
    m.counter = gpu_long(block, GPU_BLOCK_COUNTER);
    m.target = gpu_long(block, GPU_BLOCK_TARGET);
    m.remainder = gpu_long(block, GPU_BLOCK_REMAINDER);
    m.accumulator = gpu_long(block, GPU_BLOCK_ACCUMULATOR);
    m.z = (status & GPU_STATUS_Z) != 0;
    m.c = (status & GPU_STATUS_C) != 0;
    m.n = (status & GPU_STATUS_N) != 0;
    m.active = (status & GPU_STATUS_BANK) != 0;
    m.running = (status & GPU_STATUS_RUNNING) != 0;
    m.pending = (status & GPU_STATUS_PENDING) != 0;
    m.divide_mode = (status & GPU_STATUS_DIVIDE_MODE) != 0;
    return m;
}

static uint32_t status_of(const struct machine *m)
{
    uint32_t status = 0;
    status |= m->z ? GPU_STATUS_Z : 0;
    status |= m->c ? GPU_STATUS_C : 0;
    status |= m->n ? GPU_STATUS_N : 0;
    status |= m->active ? GPU_STATUS_BANK : 0;
    status |= m->running ? GPU_STATUS_RUNNING : 0;
    status |= m->pending ? GPU_STATUS_PENDING : 0;
    status |= m->divide_mode ? GPU_STATUS_DIVIDE_MODE : 0;
    return status;
}

static void put_machine(const struct machine *m, uint8_t *block)
{
    for (unsigned i = 0; i < 32; i++) {
        gpu_put_long(block, GPU_BLOCK_BANK0 + 4 * i, m->bank[0][i]);
        gpu_put_long(block, GPU_BLOCK_BANK1 + 4 * i, m->bank[1][i]);
    }
    gpu_put_long(block, GPU_BLOCK_COUNTER, m->counter);
    gpu_put_long(block, GPU_BLOCK_TARGET, m->target);
    gpu_put_long(block, GPU_BLOCK_REMAINDER, m->remainder);
    gpu_put_long(block, GPU_BLOCK_ACCUMULATOR, m->accumulator);
    gpu_put_long(block, GPU_BLOCK_STATUS, status_of(m));
}

/* "Order for a run: 31, 35, 34, 32." */
static int refusal(size_t ram_len, const uint8_t *block, size_t block_len, uint64_t budget)
{
    if (ram_len != GPU_RAM_LENGTH) {
        return GPU_RAM_LENGTH_WRONG;
    }
    if (block_len != GPU_BLOCK_LENGTH) {
        return GPU_BLOCK_LENGTH_WRONG;
    }
    if (!is_block_right(block)) {
        return GPU_BLOCK_WRONG;
    }
    if (budget > GPU_BUDGET_LIMIT) {
        return GPU_BUDGET_TOO_LARGE;
    }
    return 0;
}

/* "The 64-bit reply is answer + 256 × steps." */
uint64_t reference_run(uint8_t *ram, size_t ram_len, uint8_t *block, size_t block_len, uint64_t budget)
{
    int refused = refusal(ram_len, block, block_len, budget);
    if (refused) {
        return (uint64_t)refused;
    }
    struct machine m = machine_from(block, ram);
    uint64_t steps;
    uint64_t answer = (uint64_t)run(&m, budget, &steps);
    put_machine(&m, block);
    return answer + 256 * steps;
}
