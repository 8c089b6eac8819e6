/* A small generator of random numbers, the same on every machine: xorshift64* of Marsaglia and Vigna. No expression may
   draw two numbers in an order that C leaves to the compiler. */

#ifndef RANDOM_H
#define RANDOM_H

#include <stdint.h>

extern uint64_t random_state;

static inline uint32_t random_long(void)
{
    random_state ^= random_state >> 12;
    random_state ^= random_state << 25;
    random_state ^= random_state >> 27;
    return (uint32_t)(random_state * 0x2545F4914F6CDD1Du >> 32);
}

/* A number below `limit`, which is small, so that the slight bias does not matter. */
static inline uint32_t random_below(uint32_t limit)
{
    return (uint32_t)((uint64_t)random_long() * limit >> 32);
}

#endif
