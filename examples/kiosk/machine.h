/* The machine: local RAM and the state block. Each call overwrites both, and there is no copy of an older state. */

#ifndef KIOSK_MACHINE_H
#define KIOSK_MACHINE_H

#include <inttypes.h>
#include <stdio.h>
#include <string.h>

#include "gpu.h"

struct machine {
    uint8_t ram[GPU_RAM_LENGTH + 1]; /* one byte more than RAM has, so that a longer file is seen to be longer */
    size_t ram_length;               /* how many bytes the file gave; a wrong length is left for the calls to refuse */
    uint8_t block[GPU_BLOCK_LENGTH];
};

/* Reads the file; of one that can not be read the length is 0. */
static inline void load_image(struct machine *m, const char *path)
{
    FILE *file = fopen(path, "rb");
    m->ram_length = 0;
    if (file != NULL) {
        m->ram_length = fread(m->ram, 1, sizeof m->ram, file);
        fclose(file);
    }
}

/* The counter at the first word, running, all else zero. */
static inline void put_start_state(struct machine *m)
{
    memset(m->block, 0, sizeof m->block);
    gpu_put_long(m->block, GPU_BLOCK_COUNTER, GPU_RAM_BASE);
    gpu_put_long(m->block, GPU_BLOCK_STATUS, GPU_STATUS_RUNNING);
}

static inline uint32_t counter_of(const struct machine *m)
{
    return gpu_long(m->block, GPU_BLOCK_COUNTER);
}

static inline void show_bank(const struct machine *m, const char *name, size_t offset)
{
    printf("%s\n", name);
    for (unsigned i = 0; i < 32; i++) {
        printf("%s%08" PRIX32 "%s", i % 8 == 0 ? "  " : " ", gpu_long(m->block, offset + 4 * i), i % 8 == 7 ? "\n" : "");
    }
}

static inline void show_state(const struct machine *m)
{
    uint32_t status = gpu_long(m->block, GPU_BLOCK_STATUS);
    printf("counter %08" PRIX32 ", Z %d, C %d, N %d, bank %d\n", counter_of(m), (status & GPU_STATUS_Z) != 0,
           (status & GPU_STATUS_C) != 0, (status & GPU_STATUS_N) != 0, (status & GPU_STATUS_BANK) != 0);
    if (status & GPU_STATUS_PENDING) {
        printf("a jump to %08" PRIX32 " is pending\n", gpu_long(m->block, GPU_BLOCK_TARGET));
    }
    printf("remainder %08" PRIX32 ", accumulator %08" PRIX32 "\n", gpu_long(m->block, GPU_BLOCK_REMAINDER),
           gpu_long(m->block, GPU_BLOCK_ACCUMULATOR));
    show_bank(m, "bank 0, R0 to R31", GPU_BLOCK_BANK0);
    show_bank(m, "bank 1, R0 to R31", GPU_BLOCK_BANK1);
}

#endif
