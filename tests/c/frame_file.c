/* bayer_write and bayer_read called from C: a frame is written, compared with the example file, and read back; refusals leave the
   buffers. */
#include <stdio.h>
#include <string.h>

#include "bayer.h"
#include "expect.h"

enum { FILE_LENGTH = 1024 };

static int all_bytes(const uint8_t *bytes, size_t count, uint8_t value)
{
    for (size_t k = 0; k < count; k++) {
        if (bytes[k] != value) {
            return 0;
        }
    }
    return 1;
}

static void writes_the_example(const char *path, uint8_t file[FILE_LENGTH])
{
    const uint16_t mosaic[4] = {100, 40, 61, 200};
    const struct bayer_shape shape = {2, 2, 0};
    const struct bayer_returned returned = bayer_write(shape, mosaic, 4, file, FILE_LENGTH);
    expect(returned.number == 0 && returned.place == 0, "write returns 0, 0");

    uint8_t example[FILE_LENGTH + 1];
    FILE *stream = fopen(path, "rb");
    const size_t length = stream ? fread(example, 1, sizeof example, stream) : 0;
    if (stream) {
        fclose(stream);
    }
    expect(length == FILE_LENGTH && memcmp(file, example, FILE_LENGTH) == 0, "the written file is the example");
}

static void reads_it_back(const uint8_t file[FILE_LENGTH])
{
    uint16_t samples[5] = {7, 7, 7, 7, 7};
    const struct bayer_read_returned returned = bayer_read(file, FILE_LENGTH, samples, 5);
    expect(returned.number == 0 && returned.place == 0, "read returns 0, 0");
    expect(returned.width == 2 && returned.height == 2 && returned.phase == 0, "read adds W, H and the phase");
    expect(samples[0] == 100 && samples[1] == 40 && samples[2] == 61 && samples[3] == 200, "read yields the samples");
    expect(samples[4] == 7, "the entry past W*H stays");
}

static void refuses(const uint8_t file[FILE_LENGTH])
{
    const uint16_t bright[4] = {100, 1024, 61, 1025};
    uint8_t lent[FILE_LENGTH];
    memset(lent, 0xa5, sizeof lent);
    const struct bayer_shape shape = {2, 2, 0};
    struct bayer_returned returned = bayer_write(shape, bright, 4, lent, FILE_LENGTH);
    expect(returned.number == 5 && returned.place == 1, "write refuses a sample above 1,023: 5, 1");
    const struct bayer_shape narrow = {1, 2, 9};
    returned = bayer_write(narrow, bright, 4, lent, 3);
    expect(returned.number == 1 && returned.place == 0, "write tests the size first: 1, 0");
    expect(all_bytes(lent, sizeof lent, 0xa5), "a refused write leaves the file");

    uint8_t damaged[FILE_LENGTH];
    memcpy(damaged, file, FILE_LENGTH);
    damaged[600] ^= 1;
    uint16_t samples[4] = {7, 7, 7, 7};
    struct bayer_read_returned read = bayer_read(damaged, FILE_LENGTH, samples, 4);
    expect(read.number == 7 && read.place == 1, "read refuses a changed byte: 7, 1");
    expect(read.width == 0 && read.height == 0 && read.phase == 0, "a refusal gives no values");
    read = bayer_read(file, FILE_LENGTH, samples, 3);
    expect(read.number == 4 && read.place == 0, "read refuses too few entries: 4, 0");
    read = bayer_read(file, 0, samples, 4);
    expect(read.number == 6 && read.place == 0, "read refuses no bytes: 6, 0");
    expect(samples[0] == 7 && samples[3] == 7, "a refused read leaves the samples");
}

int main(int count, char **words)
{
    uint8_t file[FILE_LENGTH];
    memset(file, 0xa5, sizeof file);
    writes_the_example(count > 1 ? words[1] : "", file);
    reads_it_back(file);
    refuses(file);
    return expected();
}
