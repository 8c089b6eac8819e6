/* One case, run by every implementation and compared byte for byte. */

#ifndef COMPARE_H
#define COMPARE_H

#include <stddef.h>
#include <stdint.h>

/* The largest buffer that a case lends, more than any right length. */
enum { BUFFER_LENGTH = 8192 };

/* What is passed. A length of 0 is passed with the null pointer. */
struct test_case {
    uint8_t ram[BUFFER_LENGTH];
    uint8_t block[BUFFER_LENGTH];
    size_t ram_len;
    size_t block_len;
    uint64_t budget;
};

/* Lends the buffers for all implementations. Call it once, before the first comparison. */
void prepare_comparison(void);

/* Runs the case and compares replies, RAM and blocks. A difference is printed and ends the program with 1. */
void compare(const struct test_case *t);

/* The number of cases so far. */
uint64_t cases_compared(void);

/* Prints how many steps were run and how many cases gave each answer. Ends the program with 1 if an answer never came,
   if a built opcode was never run whole, or if another was: then the cases would be too weak. */
void report_coverage(void);

#endif
