/* What to say of an answer, and which kind of end it is. */

#ifndef KIOSK_SENTENCES_H
#define KIOSK_SENTENCES_H

#include <stdbool.h>

#include "gpu.h"

/* Of a refused program or call it is also said what to do. */
static inline const char *sentence(unsigned answer)
{
    switch (answer) {
    case GPU_BUDGET_SPENT:
        return "The program is still running, and its frames are used up.";
    case GPU_STOPPED:
        return "The program stopped itself.";
    case GPU_WORD_NOT_BUILT:
        return "The program came to a word that is no instruction.";
    case GPU_COUNTER_OUTSIDE:
        return "The program came to an odd address, or to an instruction that is not wholly in local RAM.";
    case GPU_ADDRESS_MISALIGNED:
        return "The program used an address that is not a multiple of 4.";
    case GPU_ADDRESS_OUTSIDE:
        return "The program used an address where there is nothing.";
    case GPU_JUMP_IS_PENDING:
        return "The program has a jump, MOVEI or MOVE PC directly after a taken jump.";
    case GPU_RULE_1:
        return "The program was refused: the word there is no instruction. See that the whole file was copied, and that the "
               "length is that of the program.";
    case GPU_RULE_2:
        return "The program was refused: the jump there goes to no instruction. Ask its author for another target.";
    case GPU_RULE_3:
        return "The program was refused: the JUMP there must directly follow the MOVEI of its own register, with the "
               "address of an instruction, and no other jump may go to it. Ask its author to put the two together.";
    case GPU_RULE_4:
        return "The program was refused: the jump there needs a plain instruction after it. Ask its author to put one "
               "there; nobody else should, since a NOP that is put in moves the instructions behind it.";
    case GPU_RULE_5:
        return "The program was refused: it must end with a jump without condition and one more instruction. See that the "
               "length is that of the program, or ask its author to add them.";
    case GPU_RULE_6:
        return "The program was refused: it can not be seen that the LOAD or STORE there stays where it may. Ask its author "
               "to set the address with a MOVEI just before it.";
    case GPU_RAM_LENGTH_WRONG:
        return "The image was refused: it can not be read, or is not 4,096 bytes long. See that it is the right file.";
    case GPU_BUDGET_TOO_LARGE:
        return "The call was refused: a frame has too many steps. Give it fewer in the kiosk's program.";
    case GPU_CODE_LENGTH_WRONG:
        return "The length was refused: give a number from 4 to 4096 that is a multiple of 4.";
    case GPU_BLOCK_WRONG:
        return "The call was refused: the state block has a wrong bit or target. Start again from the image.";
    case GPU_BLOCK_LENGTH_WRONG:
        return "The call was refused: the state block has a wrong length. Start again from the image.";
    default:
        return "The answer is unknown.";
    }
}

static inline bool is_fault(unsigned answer)
{
    return answer >= GPU_WORD_NOT_BUILT && answer <= GPU_JUMP_IS_PENDING;
}

/* Whether the call did what it was asked for, and the program can be gone on with or has stopped. */
static inline bool is_in_good_order(unsigned answer)
{
    return answer == GPU_BUDGET_SPENT || answer == GPU_STOPPED;
}

#endif
