/* The graphics processor of Tom, as a C program calls it.

   The library runs a program of that processor in memory that the caller lends. It keeps nothing between calls,
   allocates nothing and reads no file; everything that it knows is in the two buffers. */

#ifndef GPU_H
#define GPU_H

#include <stddef.h>
#include <stdint.h>

#ifdef __cplusplus
extern "C" {
#endif

/* The library's version as a text; the file VERSION has the same. */
#define GPU_VERSION "0.1.0"

/* The lengths of the two buffers in bytes, and the largest budget. */
enum {
    GPU_RAM_LENGTH = 4096,
    GPU_BLOCK_LENGTH = 276,
    GPU_BUDGET_LIMIT = 1000000
};

/* Addresses as the program sees them. Byte 0 of the RAM buffer is at GPU_RAM_BASE; a program starts there by custom.
   The three chip registers are not in the RAM buffer. */
enum {
    GPU_RAM_BASE = 0xF03000,
    GPU_FLAGS_ADDRESS = 0xF02100,
    GPU_CONTROL_ADDRESS = 0xF02114,
    GPU_DIVIDE_ADDRESS = 0xF0211C
};

/* The state block: 69 longs of four bytes, each with its high byte first, at these byte offsets.
   Register r of bank b is at GPU_BLOCK_BANK0 + 128 * b + 4 * r. */
enum {
    GPU_BLOCK_BANK0 = 0,         /* 32 longs: registers R0 to R31 of bank 0 */
    GPU_BLOCK_BANK1 = 128,       /* 32 longs: registers R0 to R31 of bank 1 */
    GPU_BLOCK_COUNTER = 256,     /* the program counter, any value */
    GPU_BLOCK_TARGET = 260,      /* the target of the pending jump, any value; zero if no jump is pending */
    GPU_BLOCK_REMAINDER = 264,   /* the remainder of the last division */
    GPU_BLOCK_ACCUMULATOR = 268, /* what IMULTN and IMACN gather */
    GPU_BLOCK_STATUS = 272       /* the bits below */
};

/* The bits of the status long. All other bits must be zero. */
enum {
    GPU_STATUS_Z = 1 << 0,           /* the last result was zero */
    GPU_STATUS_C = 1 << 1,           /* carry or borrow */
    GPU_STATUS_N = 1 << 2,           /* the last result was negative */
    GPU_STATUS_BANK = 1 << 14,       /* bank 1 is active, else bank 0 */
    GPU_STATUS_RUNNING = 1 << 16,    /* running, else stopped */
    GPU_STATUS_PENDING = 1 << 17,    /* a jump was taken, and the instruction after it has not run yet */
    GPU_STATUS_DIVIDE_MODE = 1 << 18 /* DIV divides d * 65,536 */
};

/* The answers. */
enum {
    /* The run ended in good order. */
    GPU_BUDGET_SPENT = 0, /* the whole budget was run, and the program is still running */
    GPU_STOPPED = 1,      /* the program stopped itself, or was stopped already */

    /* A fault: the next instruction can not be run. */
    GPU_WORD_NOT_BUILT = 11,     /* its word is no instruction of this machine */
    GPU_COUNTER_OUTSIDE = 12,    /* the counter is odd, or the instruction is not wholly in RAM */
    GPU_ADDRESS_MISALIGNED = 13, /* it loads or stores at an address that is not a multiple of 4 */
    GPU_ADDRESS_OUTSIDE = 14,    /* it loads or stores neither in RAM nor at one of the three chip registers */
    GPU_JUMP_IS_PENDING = 15,    /* it is a JR, JUMP, MOVEI or MOVE PC, and follows a taken jump */

    /* A refusal of gpu_check: the program breaks a loading rule. */
    GPU_RULE_1 = 21, /* a word is not built, or the last instruction does not end with the code */
    GPU_RULE_2 = 22, /* a JR goes to no instruction start in the code */
    GPU_RULE_3 = 23, /* a JUMP does not directly follow a MOVEI into its own register of an instruction start, or is a target */
    GPU_RULE_4 = 24, /* a JR or JUMP is last, or is followed by a JR, JUMP, MOVEI or MOVE PC */
    GPU_RULE_5 = 25, /* the code does not end with a JR or JUMP with condition 0 and one more instruction that is no target */
    GPU_RULE_6 = 26, /* a LOAD or STORE is not known to reach what it may reach */

    /* A refusal: the call itself is wrong. */
    GPU_RAM_LENGTH_WRONG = 31,  /* ram_len is not GPU_RAM_LENGTH */
    GPU_BUDGET_TOO_LARGE = 32,  /* budget is above GPU_BUDGET_LIMIT */
    GPU_CODE_LENGTH_WRONG = 33, /* code_len is not 4 to GPU_RAM_LENGTH, or not a multiple of 4 */
    GPU_BLOCK_WRONG = 34,       /* another status bit is set, or there is a target with no jump pending */
    GPU_BLOCK_LENGTH_WRONG = 35 /* block_len is not GPU_BLOCK_LENGTH */
};

/* Runs at most `budget` instructions from the state in `block`, with `ram` as local RAM.

   The reply is answer + 256 * steps, where steps counts the instructions that were run whole. gpu_answer and gpu_steps
   take it apart.

   After GPU_BUDGET_SPENT and GPU_STOPPED, `ram` and `block` are as the steps left them, and the same two buffers can be
   passed again to go on. A stopped program stays stopped until the caller sets GPU_STATUS_RUNNING.

   After a fault, `ram` and `block` are as the steps before the faulty one left them: the faulty step changes nothing
   and is not counted, and the counter in the block is the address of the faulty instruction.

   After a refusal, steps is 0 and neither buffer has changed. Where several refusals apply, the first of 31, 35, 34, 32
   is given, also for a program that is stopped.

   `ram` must have `ram_len` bytes and `block` `block_len` bytes that may be read and written, and the two may not
   overlap. A length of 0 is refused whatever the pointer. Neither buffer need be aligned. No other thread may touch
   them during the call; calls on other buffers may go on at the same time. */
uint64_t gpu_run(uint8_t *ram, size_t ram_len, uint8_t *block, size_t block_len, uint64_t budget);

/* Checks the program in the first `code_len` bytes of `ram` before it is run, and changes nothing.

   The reply is answer + 256 * address. Answer 0 admits the program: whatever data stands behind the code, whatever the
   registers and flags, and whatever the budgets, runs that start at GPU_RAM_BASE, running and with no jump pending, and go
   on from call to call with what each has left, answer 0 or 1 and never a fault, and the code stays as it is. A refusal tells
   the address of the instruction at fault, or 0 for a wrong length. Where several refusals apply, the first of 31, 33, 21 to
   26 is given, and for a rule the lowest address.

   `ram` must have `ram_len` bytes that may be read. Any code length may be asked for. */
uint64_t gpu_check(const uint8_t *ram, size_t ram_len, uint64_t code_len);

/* The answer in a reply of gpu_run or gpu_check. */
static inline unsigned gpu_answer(uint64_t reply)
{
    return (unsigned)(reply % 256);
}

/* The address in a reply of gpu_check. */
static inline uint32_t gpu_address(uint64_t reply)
{
    return (uint32_t)(reply / 256);
}

/* The number of steps in a reply of gpu_run. */
static inline uint64_t gpu_steps(uint64_t reply)
{
    return reply / 256;
}

/* The long at a byte offset of the state block or of RAM. */
static inline uint32_t gpu_long(const uint8_t *bytes, size_t offset)
{
    return (uint32_t)bytes[offset] << 24 | (uint32_t)bytes[offset + 1] << 16 | (uint32_t)bytes[offset + 2] << 8 |
           (uint32_t)bytes[offset + 3];
}

/* Writes a long at a byte offset of the state block or of RAM. */
static inline void gpu_put_long(uint8_t *bytes, size_t offset, uint32_t value)
{
    bytes[offset] = (uint8_t)(value >> 24);
    bytes[offset + 1] = (uint8_t)(value >> 16);
    bytes[offset + 2] = (uint8_t)(value >> 8);
    bytes[offset + 3] = (uint8_t)value;
}

#ifdef __cplusplus
}
#endif

#endif
