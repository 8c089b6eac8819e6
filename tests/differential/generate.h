/* The parts that cases are made of: edge values, words, programs and states. They are written into one case, `t`. */

#ifndef GENERATE_H
#define GENERATE_H

#include <stddef.h>
#include <stdint.h>

#include "compare.h"

extern struct test_case t;

/* Numbers at which some instruction changes its ways: ends of ranges, signs, shift counts, saturation limits. */
enum { EDGES = 47 };
extern const uint32_t edges[EDGES];

/* Addresses in and around RAM and the chip registers, aligned and not. */
enum { ADDRESSES = 38 };
extern const uint32_t addresses[ADDRESSES];

/* Words at byte offsets of RAM; past its end they go on at its start. */
uint32_t word_of(uint32_t opcode, uint32_t source, uint32_t destination);
uint32_t source_field(uint32_t word);
uint32_t destination_field(uint32_t word);
void put_word(uint32_t offset, uint32_t word);
void put_random_words(uint32_t offset, uint32_t count);

/* A word with this opcode, and zero in a field that must be zero. */
uint32_t word_with(uint32_t opcode);

/* A word of a built instruction. */
uint32_t built_word(void);

/* An edge value, an address or any number. */
uint32_t random_content(void);

/* An address of a long in RAM. */
uint32_t ram_address(void);

/* Parts of the state block. A status with a pending jump comes with a target, one without comes with zero. */
void put_register(unsigned bank, unsigned field, uint32_t value);
void put_counter(uint32_t counter);
void put_status(uint32_t status);
uint32_t random_status(void);

/* The whole block, with the counter in RAM. */
void put_random_state(void);

/* The byte offset of the counter in RAM. */
uint32_t counter_offset(void);

/* A loop that goes on for long: instructions that rarely fault, then a JUMP back to the first. */
void put_loop(void);

#endif
