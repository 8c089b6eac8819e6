/* The whole machine of paper 01 in plain C, to hold others to. */

#ifndef REFERENCE_H
#define REFERENCE_H

#include <stddef.h>
#include <stdint.h>

/* The same call as gpu_run, with the same reply and the same buffers after it. */
uint64_t reference_run(uint8_t *ram, size_t ram_len, uint8_t *block, size_t block_len, uint64_t budget);

#endif
