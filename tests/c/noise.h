/* What the tests in C share: noise, samples that follow from their place alone. */
#ifndef NOISE_H
#define NOISE_H

#include <stddef.h>
#include <stdint.h>
#include <stdlib.h>

/* So many samples, for the caller to free; NULL where there is no memory. */
static uint16_t *noise(size_t count)
{
    uint16_t *samples = malloc(count * sizeof *samples);
    uint32_t state = 1;
    for (size_t k = 0; samples != NULL && k < count; k++) {
        state = state * 1664525u + 1013904223u;
        samples[k] = (uint16_t)(state >> 22);
    }
    return samples;
}

#endif
