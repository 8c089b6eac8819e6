/* The loading check of paper 01 in plain C, to hold gpu_check to. */

#ifndef RULES_H
#define RULES_H

#include <stddef.h>
#include <stdint.h>

/* The same call as gpu_check, with the same reply. */
uint64_t reference_check(const uint8_t *ram, size_t ram_len, uint64_t code_len);

#endif
