/* develop_frame FILE: reads a frame file, develops and clamps it, and prints each site's colours by the tone curve of
   display panels. What fails is told in one line on standard error, with status 1; a refusal of the library's by its
   number, place and text. FILE may be a pipe. C99.

       cc develop_frame.c $(pkg-config --cflags --libs bayer) */
#include <bayer.h>
#include <stdio.h>
#include <stdlib.h>

/* The camera's black level: the sample that stands for no light. A frame file does not hold it. 0 is right for samples
   that had it taken off before, as those of the document's example. */
static const size_t black = 0;

/* The room for a file at first, a block of it; it is doubled until the file ends in it. */
static const size_t first_room = 512;

static const char output[] = "standard output";

struct contents {
    uint8_t *bytes;
    size_t length;
};

struct frame {
    struct bayer_shape shape;
    uint16_t *mosaic;
};

struct planes {
    int32_t *red, *green, *blue;
    uint8_t *map;
};

/* Ends the program with the system's reason. */
static void fail(const char *name)
{
    perror(name);
    exit(EXIT_FAILURE);
}

/* Ends the program where the library refuses what it was lent. */
static void accept(struct bayer_returned returned)
{
    if (returned.number != BAYER_DONE) {
        const char *text = bayer_text(returned.number);
        fprintf(stderr, "refused %zu %zu: %s\n", returned.number, returned.place, text);
        exit(EXIT_FAILURE);
    }
}

/* Ends the program where there is no memory. */
static void *allocated(void *memory)
{
    if (memory == NULL) {
        fputs("out of memory\n", stderr);
        exit(EXIT_FAILURE);
    }
    return memory;
}

static void *room(size_t count, size_t size)
{
    return allocated(calloc(count > 0 ? count : 1, size));
}

/* All bytes of the file. Its size is not asked for, as a pipe has none. */
static struct contents contents(const char *path)
{
    FILE *stream = fopen(path, "rb");
    if (stream == NULL) {
        fail(path);
    }
    struct contents file = {NULL, 0};
    size_t size = 0;
    do {
        size = size > 0 ? 2 * size : first_room;
        file.bytes = allocated(realloc(file.bytes, size));
        file.length += fread(file.bytes + file.length, 1, size - file.length, stream);
    } while (file.length == size);
    if (ferror(stream)) {
        fail(path);
    }
    fclose(stream);
    return file;
}

static struct frame frame_of(struct contents file)
{
    const size_t length = BAYER_READ_LENGTH(file.length);
    uint16_t *samples = room(length, sizeof *samples);
    const struct bayer_read_returned read = bayer_read(file.bytes, file.length, samples, length);
    accept((struct bayer_returned){read.number, read.place});
    return (struct frame){{read.width, read.height, read.phase}, samples};
}

static struct planes developed(struct frame frame)
{
    const size_t count = BAYER_PLANE_LENGTH(frame.shape.width, frame.shape.height);
    const size_t map_length = BAYER_MAP_LENGTH(frame.shape.width, frame.shape.height);
    const size_t work_length = BAYER_WORK_LENGTH(frame.shape.width, frame.shape.height);
    struct planes planes;
    planes.red = room(count, sizeof *planes.red);
    planes.green = room(count, sizeof *planes.green);
    planes.blue = room(count, sizeof *planes.blue);
    planes.map = room(map_length, sizeof *planes.map);
    int32_t *work = room(work_length, sizeof *work);
    accept(bayer_develop(frame.shape, black, frame.mosaic, count, planes.red, count, planes.green,
                         count, planes.blue, count, planes.map, map_length, work, work_length));
    free(work);
    return planes;
}

/* Clamps a developed plane, and applies the tone curve to what that gives. */
static void curve(int32_t *plane, size_t count)
{
    int32_t *clamped = room(count, sizeof *clamped);
    accept(bayer_clamp(plane, count, clamped, count));
    accept(bayer_curve(clamped, count, plane, count));
    free(clamped);
}

/* A full disk shows where the output is written, at the latest where it is closed. */
static void print(struct bayer_shape shape, struct planes planes)
{
    if (puts("row col red green blue") == EOF) {
        fail(output);
    }
    for (size_t k = 0; k < BAYER_PLANE_LENGTH(shape.width, shape.height); k++) {
        const int red = planes.red[k], green = planes.green[k], blue = planes.blue[k];
        const size_t row = k / shape.width, column = k % shape.width;
        if (printf("%zu %zu %d %d %d\n", row, column, red, green, blue) < 0) {
            fail(output);
        }
    }
    if (fclose(stdout) != 0) {
        fail(output);
    }
}

int main(int count, char **words)
{
    if (count != 2) {
        fputs("usage: develop_frame FILE\n", stderr);
        return 2;
    }
    const struct contents file = contents(words[1]);
    const struct frame frame = frame_of(file);
    const struct planes planes = developed(frame);
    const size_t sites = BAYER_PLANE_LENGTH(frame.shape.width, frame.shape.height);
    curve(planes.red, sites);
    curve(planes.green, sites);
    curve(planes.blue, sites);
    print(frame.shape, planes);
    free(file.bytes);
    free(frame.mosaic);
    free(planes.red);
    free(planes.green);
    free(planes.blue);
    free(planes.map);
    return EXIT_SUCCESS;
}
