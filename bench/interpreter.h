/* A plain, fast interpreter of the same machine in C: what the archive's speed is measured against. */

#ifndef INTERPRETER_H
#define INTERPRETER_H

#include <stddef.h>
#include <stdint.h>

/* The same call as gpu_run, with the same reply and the same buffers after it. */
uint64_t interpreter_run(uint8_t *ram, size_t ram_len, uint8_t *block, size_t block_len, uint64_t budget);

#endif
