/* make_frame W H PHASE: writes the frame file of a frame of noise to standard output. */
#include <stdio.h>
#include <stdlib.h>

#include "bayer.h"
#include "noise.h"

int main(int count, char **words)
{
    if (count != 4) {
        return 2;
    }
    const struct bayer_shape shape = {strtoul(words[1], NULL, 10), strtoul(words[2], NULL, 10), strtoul(words[3], NULL, 10)};
    const size_t samples = BAYER_PLANE_LENGTH(shape.width, shape.height), length = BAYER_FILE_LENGTH(shape.width, shape.height);
    uint16_t *mosaic = noise(samples);
    uint8_t *file = malloc(length);
    if (mosaic == NULL || file == NULL) {
        return 2;
    }
    const struct bayer_returned returned = bayer_write(shape, mosaic, samples, file, length);
    const int written = returned.number == BAYER_DONE && fwrite(file, 1, length, stdout) == length;
    free(mosaic);
    free(file);
    return written ? 0 : 1;
}
