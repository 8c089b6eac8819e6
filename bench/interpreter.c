/* A plain interpreter of the same machine, written to be fast: the state behind a pointer, registers as native numbers,
   one switch on the opcode. The differential test holds it to the reference, so that the two timings are of the same
   work. */

#include "interpreter.h"

#include <string.h>

#define RAM_BASE 0xF03000u
#define RAM_LENGTH 4096u
#define FLAGS 0xF02100u
#define CONTROL 0xF02114u
#define DIVIDE 0xF0211Cu
#define BLOCK_LENGTH 276
#define BUDGET_LIMIT 1000000
#define STATUS_BITS 0x74007u

struct machine {
    uint32_t bank[2][32];
    uint32_t counter;
    uint32_t target;
    uint32_t remainder;
    uint32_t accumulator;
    uint32_t z, c, n;
    uint32_t active;
    uint32_t running;
    uint32_t pending;
    uint32_t divide_mode;
};

static inline uint32_t get_word(const uint8_t *bytes)
{
    uint16_t word;
    memcpy(&word, bytes, 2);
    return __builtin_bswap16(word);
}

static inline uint32_t get_long(const uint8_t *bytes)
{
    uint32_t value;
    memcpy(&value, bytes, 4);
    return __builtin_bswap32(value);
}

static inline void put_long(uint8_t *bytes, uint32_t value)
{
    value = __builtin_bswap32(value);
    memcpy(bytes, &value, 4);
}

static inline uint32_t quick(uint32_t field)
{
    return ((field - 1) & 31) + 1;
}

static inline uint32_t signed_field(uint32_t field)
{
    return (field ^ 16) - 16;
}

static inline uint32_t product(uint32_t d, uint32_t s)
{
    return (uint32_t)((int16_t)d * (int16_t)s);
}

static inline uint32_t rotated(uint32_t d, uint32_t places)
{
    return d >> (places & 31) | d << (-places & 31);
}

static inline uint32_t clamp(uint32_t d, int32_t top)
{
    int32_t value = (int32_t)d;
    value = value > top ? top : value;
    return (uint32_t)(value < 0 ? 0 : value);
}

/* The flags rule out one of condition bits 0 and 1, and one of bits 2 and 3. */
static inline uint32_t is_taken(uint32_t condition, uint32_t z, uint32_t c, uint32_t n)
{
    uint32_t chosen = condition & 16 ? n : c;
    uint32_t against = (z ? 1 : 2) | (chosen ? 4 : 8);
    return (condition & against) == 0;
}

/* How an arm of the switch ends. RESULT writes the destination with Z and N, KEEP writes it alone, END leaves the loop
   with an answer. */
#define RESULT(value)                                                                                                  \
    {                                                                                                                  \
        *to = nonzero = sign = (value);                                                                                \
        break;                                                                                                         \
    }
#define KEEP(value)                                                                                                    \
    {                                                                                                                  \
        *to = (value);                                                                                                 \
        break;                                                                                                         \
    }
#define END(number)                                                                                                    \
    {                                                                                                                  \
        answer = (number);                                                                                             \
        goto end;                                                                                                      \
    }
#define SOURCE_MUST_BE_ZERO                                                                                            \
    if (source) {                                                                                                      \
        END(11)                                                                                                        \
    }
#define NONE_MUST_BE_PENDING                                                                                           \
    if (pending) {                                                                                                     \
        END(15)                                                                                                        \
    }

/* What most steps touch is in locals. Z and N are kept as the result that they tell of: Z is set where `nonzero` is 0,
   and N is bit 31 of `sign`. The function is not inlined, because gcc then keeps the loop's locals in registers. */
static __attribute__((noinline)) uint64_t run(struct machine *restrict m, uint8_t *restrict ram, uint64_t budget)
{
    uint32_t *r = m->bank[m->active];
    uint32_t *other = m->bank[m->active ^ 1];
    uint32_t counter = m->counter;
    uint32_t nonzero = !m->z, c = m->c, sign = m->n << 31;
    uint32_t pending = m->pending;
    uint64_t answer = 0;
    uint64_t left = budget;

    if (!m->running) {
        return 1;
    }
    for (; left != 0; left--) {
        uint32_t offset = counter - RAM_BASE;
        if (offset >= RAM_LENGTH || (offset & 1)) {
            END(12)
        }
        uint32_t word = get_word(ram + offset);
        uint32_t source = word >> 5 & 31;
        uint32_t s = r[source];
        uint32_t *to = &r[word & 31];
        uint32_t d = *to;
        uint32_t address;

        switch (word >> 10) {
        case 0: /* ADD */
            c = d + s < d;
            RESULT(d + s)
        case 1: { /* ADDC */
            uint64_t sum = (uint64_t)d + s + c;
            c = (uint32_t)(sum >> 32);
            RESULT((uint32_t)sum)
        }
        case 2: /* ADDQ */
            s = quick(source);
            c = d + s < d;
            RESULT(d + s)
        case 3: /* ADDQT */
            KEEP(d + quick(source))
        case 4: /* SUB */
            c = d < s;
            RESULT(d - s)
        case 5: { /* SUBC */
            uint64_t difference = (uint64_t)d - s - c;
            c = difference >> 63;
            RESULT((uint32_t)difference)
        }
        case 6: /* SUBQ */
            s = quick(source);
            c = d < s;
            RESULT(d - s)
        case 7: /* SUBQT */
            KEEP(d - quick(source))
        case 8: /* NEG */
            SOURCE_MUST_BE_ZERO
            c = d != 0;
            RESULT(0 - d)
        case 9: /* AND */
            RESULT(d & s)
        case 10: /* OR */
            RESULT(d | s)
        case 11: /* XOR */
            RESULT(d ^ s)
        case 12: /* NOT */
            SOURCE_MUST_BE_ZERO
            RESULT(~d)
        case 13: /* BTST */
            nonzero = d >> source & 1;
            break;
        case 14: /* BSET */
            RESULT(d | 1u << source)
        case 15: /* BCLR */
            RESULT(d & ~(1u << source))
        case 16: /* MULT */
            RESULT((d & 0xFFFF) * (s & 0xFFFF))
        case 17: /* IMULT */
            RESULT(product(d, s))
        case 18: /* IMULTN */
            m->accumulator = nonzero = sign = product(d, s);
            break;
        case 19: /* RESMAC */
            SOURCE_MUST_BE_ZERO
            KEEP(m->accumulator)
        case 20: /* IMACN */
            m->accumulator += product(d, s);
            break;
        case 21: /* DIV */
            if (s == 0) {
                m->remainder = d;
                KEEP(0xFFFFFFFFu)
            }
            if (m->divide_mode) {
                uint64_t dividend = (uint64_t)d << 16;
                m->remainder = (uint32_t)(dividend % s);
                KEEP((uint32_t)(dividend / s))
            }
            m->remainder = d % s;
            KEEP(d / s)
        case 22: /* ABS */
            SOURCE_MUST_BE_ZERO
            c = d >> 31;
            RESULT(c ? 0 - d : d)
        case 23: /* SH */
            if ((int32_t)s >= 0) {
                c = d & 1;
                RESULT(s < 32 ? d >> s : 0)
            }
            c = d >> 31;
            s = 0 - s;
            RESULT(s < 32 ? d << s : 0)
        case 24: /* SHLQ */
            c = d >> 31;
            RESULT((uint32_t)((uint64_t)d << quick(source)))
        case 25: /* SHRQ */
            c = d & 1;
            RESULT((uint32_t)((uint64_t)d >> quick(source)))
        case 26: /* SHA */
            if ((int32_t)s >= 0) {
                c = d & 1;
                RESULT((uint32_t)((int32_t)d >> (s < 32 ? s : 31)))
            }
            c = d >> 31;
            s = 0 - s;
            RESULT(s < 32 ? d << s : 0)
        case 27: /* SHARQ */
            c = d & 1;
            RESULT((uint32_t)((int64_t)(int32_t)d >> quick(source)))
        case 28: /* ROR */
            c = d >> 31;
            RESULT(rotated(d, s))
        case 29: /* RORQ */
            c = d >> 31;
            RESULT(rotated(d, source))
        case 31: /* CMPQ */
            s = signed_field(source);
            /* fall through */
        case 30: /* CMP */
            c = d < s;
            nonzero = sign = d - s;
            break;
        case 32: /* SAT8 */
            SOURCE_MUST_BE_ZERO
            RESULT(clamp(d, 255))
        case 33: /* SAT16 */
            SOURCE_MUST_BE_ZERO
            RESULT(clamp(d, 65535))
        case 34: /* MOVE */
            KEEP(s)
        case 35: /* MOVEQ */
            KEEP(source)
        case 36: /* MOVETA */
            other[word & 31] = s;
            break;
        case 37: /* MOVEFA */
            KEEP(other[source])
        case 38: /* MOVEI */
            SOURCE_MUST_BE_ZERO
            NONE_MUST_BE_PENDING
            if (offset > RAM_LENGTH - 6) {
                END(12)
            }
            *to = get_word(ram + offset + 2) | get_word(ram + offset + 4) << 16;
            counter += 6;
            continue;
        case 41: /* LOAD */
            address = s;
            goto load;
        case 43: /* LOAD (R14+n) */
            address = r[14] + 4 * quick(source);
            goto load;
        case 44: /* LOAD (R15+n) */
            address = r[15] + 4 * quick(source);
            goto load;
        case 47: /* STORE */
            address = s;
            goto store;
        case 49: /* STORE (R14+n) */
            address = r[14] + 4 * quick(source);
            goto store;
        case 50: /* STORE (R15+n) */
            address = r[15] + 4 * quick(source);
            goto store;
        case 51: /* MOVE PC */
            SOURCE_MUST_BE_ZERO
            NONE_MUST_BE_PENDING
            KEEP(counter)
        case 52: /* JUMP */
            NONE_MUST_BE_PENDING
            if (is_taken(word & 31, nonzero == 0, c, sign >> 31)) {
                m->target = s;
                pending = 1;
            }
            counter += 2;
            continue;
        case 53: /* JR */
            NONE_MUST_BE_PENDING
            if (is_taken(word & 31, nonzero == 0, c, sign >> 31)) {
                m->target = counter + 2 + 2 * signed_field(source);
                pending = 1;
            }
            counter += 2;
            continue;
        case 55: /* MTOI */
            RESULT((s & 0x7FFFFF) | ((uint32_t)((int32_t)s >> 31) & 0xFF800000u))
        case 56: /* NORMI */
            RESULT(s ? 9u - (uint32_t)__builtin_clz(s) : 0)
        case 57: /* NOP */
            if (word & 0x3FF) {
                END(11)
            }
            break;
        case 58: /* LOAD (R14+Rn) */
            address = r[14] + s;
            goto load;
        case 59: /* LOAD (R15+Rn) */
            address = r[15] + s;
            goto load;
        case 60: /* STORE (R14+Rn) */
            address = r[14] + s;
            goto store;
        case 61: /* STORE (R15+Rn) */
            address = r[15] + s;
            goto store;
        case 62: /* SAT24 */
            SOURCE_MUST_BE_ZERO
            RESULT(clamp(d, 16777215))
        case 39:
        case 40:
        case 42:
        case 45:
        case 46:
        case 48:
        case 54:
        case 63:
            END(11)

        load:
            offset = address - RAM_BASE;
            if (address & 3) {
                END(13)
            }
            if (offset < RAM_LENGTH) {
                KEEP(get_long(ram + offset))
            }
            if (address == FLAGS) {
                KEEP((nonzero == 0) | c << 1 | sign >> 31 << 2 | (uint32_t)(r == m->bank[1]) << 14)
            }
            if (address == CONTROL) {
                KEEP(0x2001)
            }
            if (address == DIVIDE) {
                KEEP(m->remainder)
            }
            END(14)

        store:
            offset = address - RAM_BASE;
            if (address & 3) {
                END(13)
            }
            if (offset < RAM_LENGTH) {
                put_long(ram + offset, d);
                break;
            }
            if (address == FLAGS) {
                nonzero = ~d & 1;
                c = d >> 1 & 1;
                sign = d << 29;
                r = m->bank[d >> 14 & 1];
                other = m->bank[~d >> 14 & 1];
                break;
            }
            if (address == DIVIDE) {
                m->divide_mode = d & 1;
                break;
            }
            if (address != CONTROL) {
                END(14)
            }
            if (d & 1) {
                break;
            }
            /* The stop ends the loop here, so that no other step has to ask whether the machine runs. */
            m->running = 0;
            counter = pending ? m->target : counter + 2;
            pending = 0;
            left--;
            END(1)
        }

        if (__builtin_expect(pending, 0)) {
            counter = m->target;
            pending = 0;
        } else {
            counter += 2;
        }
    }
end:
    m->active = r == m->bank[1];
    m->counter = counter;
    m->z = nonzero == 0;
    m->c = c;
    m->n = sign >> 31;
    m->pending = pending;
    if (!pending) {
        m->target = 0;
    }
    return answer + 256 * (budget - left);
}

static void unpack(struct machine *m, const uint8_t *block)
{
    uint32_t status = get_long(block + 272);
    for (int i = 0; i < 64; i++) {
        m->bank[i / 32][i % 32] = get_long(block + 4 * i);
    }
    m->counter = get_long(block + 256);
    m->target = get_long(block + 260);
    m->remainder = get_long(block + 264);
    m->accumulator = get_long(block + 268);
    m->z = status & 1;
    m->c = status >> 1 & 1;
    m->n = status >> 2 & 1;
    m->active = status >> 14 & 1;
    m->running = status >> 16 & 1;
    m->pending = status >> 17 & 1;
    m->divide_mode = status >> 18 & 1;
}

static void pack(const struct machine *m, uint8_t *block)
{
    for (int i = 0; i < 64; i++) {
        put_long(block + 4 * i, m->bank[i / 32][i % 32]);
    }
    put_long(block + 256, m->counter);
    put_long(block + 260, m->target);
    put_long(block + 264, m->remainder);
    put_long(block + 268, m->accumulator);
    put_long(block + 272, m->z | m->c << 1 | m->n << 2 | m->active << 14 | m->running << 16 | m->pending << 17 |
                              m->divide_mode << 18);
}

uint64_t interpreter_run(uint8_t *ram, size_t ram_len, uint8_t *block, size_t block_len, uint64_t budget)
{
    struct machine m;
    if (ram_len != RAM_LENGTH) {
        return 31;
    }
    if (block_len != BLOCK_LENGTH) {
        return 35;
    }
    unpack(&m, block);
    if ((get_long(block + 272) & ~STATUS_BITS) != 0 || (!m.pending && m.target != 0)) {
        return 34;
    }
    if (budget > BUDGET_LIMIT) {
        return 32;
    }
    uint64_t reply = run(&m, ram, budget);
    pack(&m, block);
    return reply;
}
