/* What bayer.h says beside the calls: numbers, texts, version, lengths, and null pointers with the length 0. */
#include <stdio.h>
#include <string.h>

#include "bayer.h"
#include "expect.h"

enum { COUNT = 4, WORK = 16, FILE_LENGTH = 1024 };

static const struct bayer_shape shape = {2, 2, BAYER_RGGB};
static const uint16_t mosaic[COUNT] = {100, 40, 61, 200};

static void texts(void)
{
    int differ = 1;
    for (size_t number = BAYER_DONE; number <= BAYER_UNCLAMPED + 1; number++) {
        for (size_t other = 0; other < number; other++) {
            differ = differ && strcmp(bayer_text(number), bayer_text(other)) != 0;
        }
    }
    expect(differ && bayer_text(BAYER_DONE)[0] != '\0', "each number has a text of its own");
    expect(strcmp(bayer_text(BAYER_UNCLAMPED + 1), bayer_text(SIZE_MAX)) == 0, "numbers that no call returns have one text");
    expect(strstr(bayer_text(BAYER_SIZE), "4096") != NULL, "the text of 1 is that of the size");
    expect(strstr(bayer_text(BAYER_SAMPLE), "1023") != NULL, "the text of 5 is that of the samples");
    expect(strstr(bayer_text(BAYER_FILLER), "filler") != NULL, "the text of 10 is that of the filler");
    expect(strstr(bayer_text(BAYER_BLACK_LEVEL), "255") != NULL, "the text of 11 is that of the black level");
    expect(strstr(bayer_text(BAYER_UNDER_BLACK), "64 under") != NULL, "the text of 12 is that of samples under it");
    expect(strstr(bayer_text(BAYER_UNCLAMPED), "below 0 or above 1023") != NULL, "the text of 13 is that of planes that are not clamped");
}

static void decision_texts(void)
{
    const char *const words[] = {"measured", "equal", "strong across", "strong down", "weak resolved across", "weak resolved down",
                                 "weak resolved to the mean"};
    int as_told = sizeof words / sizeof words[0] == BAYER_WEAK_TO_MEAN + 1, differ = 1;
    for (size_t code = BAYER_MEASURED; code <= BAYER_WEAK_TO_MEAN; code++) {
        as_told = as_told && strcmp(bayer_decision_text(code), words[code]) == 0;
        differ = differ && strcmp(bayer_decision_text(code), bayer_decision_text(SIZE_MAX)) != 0;
    }
    expect(as_told, "each decision code has its text");
    expect(differ && bayer_decision_text(SIZE_MAX)[0] != '\0', "codes that no map holds have another");
    expect(strcmp(bayer_decision_text(BAYER_WEAK_TO_MEAN + 1), bayer_decision_text(SIZE_MAX)) == 0, "and one for all of them");
}

static void version(void)
{
    char numbers[32];
    snprintf(numbers, sizeof numbers, "%d.%d.%d", BAYER_VERSION_MAJOR, BAYER_VERSION_MINOR, BAYER_VERSION_PATCH);
    expect(strcmp(numbers, BAYER_VERSION) == 0, "the version is that of its three numbers");
    expect(strcmp(bayer_version(), BAYER_VERSION) == 0, "the linked library has the header's version");
}

/* Whether read, lent what the header says, accepts the frame of these sides that write made. */
static int read_has_room(size_t width, size_t height)
{
    static uint16_t samples[BAYER_READ_LENGTH(BAYER_FILE_LENGTH(4096, 2))];
    static uint8_t file[BAYER_FILE_LENGTH(4096, 2)];
    const struct bayer_shape of = {width, height, BAYER_BGGR};
    const size_t length = BAYER_FILE_LENGTH(width, height);
    memset(samples, 0, sizeof samples);
    const struct bayer_returned wrote = bayer_write(of, samples, BAYER_PLANE_LENGTH(width, height), file, length);
    const struct bayer_read_returned read = bayer_read(file, length, samples, BAYER_READ_LENGTH(length));
    return wrote.number == BAYER_DONE && read.number == BAYER_DONE && read.width == width && read.height == height && read.phase == BAYER_BGGR;
}

static void lengths(void)
{
    expect(BAYER_FILE_LENGTH(2, 2) == 1024 && BAYER_FILE_LENGTH(20, 20) == 1024, "400 samples fit in one block after the first");
    expect(BAYER_FILE_LENGTH(3, 134) == 1536, "402 samples take one more");
    expect(BAYER_WORK_LENGTH(BAYER_SIDE_MOST, BAYER_SIDE_MOST) == (size_t)1 << 26, "the work buffer of the largest frame");
    expect(BAYER_MAP_LENGTH(BAYER_SIDE_MOST, BAYER_SIDE_MOST) == (size_t)1 << 24, "the map of the largest frame");
    expect(BAYER_WORK_LENGTH((uint16_t)4096, (short)3 + 1) == 65536, "lengths for arguments of any type");
    expect(BAYER_READ_LENGTH(0) == 0 && BAYER_READ_LENGTH(511) == 0, "no room for a file that is too short");
    expect(read_has_room(2, 2) && read_has_room(20, 20) && read_has_room(3, 134) && read_has_room(4096, 2),
           "the room that is told before the size is known is enough");
}

static int is(struct bayer_returned returned, size_t number)
{
    return returned.number == number && returned.place == 0;
}

/* The number that read returns for the example file with one byte changed, and the check of block 1 or 0 set to fit where told. */
static size_t read_changed(size_t place, uint8_t value, int fits)
{
    uint16_t samples[COUNT];
    uint8_t file[FILE_LENGTH];
    uint8_t *block = file + place / 512 * 512;
    uint32_t check = 0;
    bayer_write(shape, mosaic, COUNT, file, FILE_LENGTH);
    file[place] = value;
    for (uint32_t k = 0; k < 508; k++) {
        check += (k + 1) * block[k];
    }
    for (int k = 0; fits && k < 4; k++) {
        block[508 + k] = (uint8_t)(check >> 8 * k);
    }
    return bayer_read(file, FILE_LENGTH, samples, COUNT).number;
}

static void numbers(void)
{
    const uint16_t bright[COUNT] = {100, 40, 61, BAYER_SAMPLE_MOST + 1};
    const struct bayer_shape wide = {BAYER_SIDE_MOST + 1, 2, BAYER_RGGB}, phase_4 = {2, 2, BAYER_BGGR + 1};
    uint8_t file[FILE_LENGTH];
    const struct bayer_returned sample = bayer_write(shape, bright, COUNT, file, FILE_LENGTH);
    expect(is(bayer_write(wide, mosaic, COUNT, file, FILE_LENGTH), BAYER_SIZE), "a side of 4,097: BAYER_SIZE");
    expect(is(bayer_write(phase_4, mosaic, COUNT, file, FILE_LENGTH), BAYER_PHASE), "phase 4: BAYER_PHASE");
    expect(sample.number == BAYER_SAMPLE && sample.place == 3, "a sample of 1,024: BAYER_SAMPLE and its place");
    expect(read_changed(600, 1, 0) == BAYER_CHECK, "a byte changed: BAYER_CHECK");
    expect(read_changed(12, 4, 1) == BAYER_HEADER, "phase 4 in a file: BAYER_HEADER");
    expect(read_changed(512, 2, 1) == BAYER_BLOCK_NUMBER, "block 1 with the number 2: BAYER_BLOCK_NUMBER");
    expect(read_changed(1019, 1, 1) == BAYER_FILLER, "a filler byte of 1: BAYER_FILLER");
    expect(read_changed(8, 201, 1) == BAYER_BLOCK_COUNT, "W too large for the count of blocks: BAYER_BLOCK_COUNT");
}

static void null_mosaics_and_files(void)
{
    uint16_t samples[COUNT] = {7, 7, 7, 7};
    uint8_t file[FILE_LENGTH];
    expect(is(bayer_write(shape, NULL, 0, file, FILE_LENGTH), BAYER_MOSAIC_LENGTH), "write, mosaic null with length 0: 3, 0");
    expect(is(bayer_write(shape, mosaic, COUNT, NULL, 0), BAYER_BUFFER_LENGTH), "write, file null with length 0: 4, 0");
    bayer_write(shape, mosaic, COUNT, file, FILE_LENGTH);
    expect(bayer_read(NULL, 0, samples, COUNT).number == BAYER_BLOCK_COUNT, "read, file null with length 0: 6, 0");
    expect(bayer_read(file, FILE_LENGTH, NULL, 0).number == BAYER_BUFFER_LENGTH, "read, samples null with length 0: 4, 0");
    expect(bayer_read(NULL, 0, NULL, 0).number == BAYER_BLOCK_COUNT, "read, both null with length 0: 6, 0");
}

static void null_planes(void)
{
    const int32_t unclamped[COUNT] = {-1, -1, -1, -1};
    int32_t red[COUNT], green[COUNT], blue[COUNT], work[WORK];
    uint8_t map[COUNT];
    struct bayer_returned returned = bayer_develop(shape, 0, NULL, 0, red, COUNT, green, COUNT, blue, COUNT, map, COUNT, work, WORK);
    expect(is(returned, BAYER_MOSAIC_LENGTH), "develop, mosaic null with length 0: 3, 0");
    returned = bayer_develop(shape, 0, mosaic, COUNT, NULL, 0, green, COUNT, blue, COUNT, map, COUNT, work, WORK);
    expect(is(returned, BAYER_BUFFER_LENGTH), "develop, red null with length 0: 4, 0");
    returned = bayer_develop(shape, 0, mosaic, COUNT, red, COUNT, NULL, 0, blue, COUNT, map, COUNT, work, WORK);
    expect(is(returned, BAYER_BUFFER_LENGTH), "develop, green null with length 0: 4, 0");
    returned = bayer_develop(shape, 0, mosaic, COUNT, red, COUNT, green, COUNT, NULL, 0, map, COUNT, work, WORK);
    expect(is(returned, BAYER_BUFFER_LENGTH), "develop, blue null with length 0: 4, 0");
    returned = bayer_develop(shape, 0, mosaic, COUNT, red, COUNT, green, COUNT, blue, COUNT, NULL, 0, work, WORK);
    expect(is(returned, BAYER_BUFFER_LENGTH), "develop, map null with length 0: 4, 0");
    returned = bayer_develop(shape, 0, mosaic, COUNT, red, COUNT, green, COUNT, blue, COUNT, map, COUNT, NULL, 0);
    expect(is(returned, BAYER_BUFFER_LENGTH), "develop, work null with length 0: 4, 0");
    const struct bayer_shape none = {0, 0, 0};
    returned = bayer_develop(none, 0, NULL, 0, NULL, 0, NULL, 0, NULL, 0, NULL, 0, NULL, 0);
    expect(is(returned, BAYER_SIZE), "develop, everything null and 0: 1, 0");
    expect(is(bayer_clamp(NULL, 0, NULL, 0), BAYER_DONE), "clamp, both null with length 0: 0, 0");
    expect(is(bayer_clamp(NULL, 0, red, COUNT), BAYER_BUFFER_LENGTH), "clamp, plane null with length 0: 4, 0");
    expect(is(bayer_clamp(work, 0, NULL, 0), BAYER_DONE), "clamp, one null and one not, both with length 0: 0, 0");
    expect(is(bayer_curve(NULL, 0, NULL, 0), BAYER_DONE), "curve, both null with length 0: 0, 0");
    expect(is(bayer_curve(NULL, 0, red, COUNT), BAYER_BUFFER_LENGTH), "curve, plane null with length 0: 4, 0");
    expect(is(bayer_curve(unclamped, COUNT, NULL, 0), BAYER_BUFFER_LENGTH), "curve, curved null with length 0: 4, 0");
    expect(is(bayer_curve(unclamped, 0, NULL, 0), BAYER_DONE), "curve, one null and one not, both with length 0: 0, 0");
}

int main(void)
{
    texts();
    decision_texts();
    version();
    lengths();
    numbers();
    null_mosaics_and_files();
    null_planes();
    return expected();
}
