/* The length macros of bayer.h, in C and in C++: in sizes of arrays, and of arguments of many types. It is built with the warnings that
   either language has for casts and conversions (tests/library). */
#include "bayer.h"
#include "expect.h"

typedef int32_t plane[BAYER_PLANE_LENGTH(3, 2)];
typedef uint8_t map[BAYER_MAP_LENGTH(3, 2)];
typedef int32_t work[BAYER_WORK_LENGTH(3, 2)];
typedef uint8_t file[BAYER_FILE_LENGTH(3, 2)];
typedef uint16_t samples[BAYER_READ_LENGTH(1024)];

static void sizes_of_arrays(void)
{
    expect(sizeof(plane) == 6 * sizeof(int32_t) && sizeof(map) == 6, "a plane and a map of 3 by 2");
    expect(sizeof(work) == 24 * sizeof(int32_t) && sizeof(file) == 1024, "work and a file of 3 by 2");
    expect(sizeof(samples) == 800 * sizeof(uint16_t), "samples of a file of 1,024 bytes");
    expect(BAYER_PLANE_LENGTH(1 + 2, 4 - 2) == 6, "arguments that are sums");
}

/* The sides of the largest frame, and the length of a file, in variables of a type. */
#define EXPECT_LENGTHS(type)                                                                         \
    do {                                                                                             \
        type width = BAYER_SIDE_MOST, height = BAYER_SIDE_MOST, bytes = 32767;                       \
        expect(BAYER_PLANE_LENGTH(width, height) == 16777216, "a plane, sides of type " #type);      \
        expect(BAYER_MAP_LENGTH(width, height) == 16777216, "a map, sides of type " #type);          \
        expect(BAYER_WORK_LENGTH(width, height) == 67108864, "work, sides of type " #type);          \
        expect(BAYER_FILE_LENGTH(width, height) == 21475840, "a file, sides of type " #type);        \
        expect(BAYER_READ_LENGTH(bytes) == 25200, "samples of a file, its length of type " #type);   \
    } while (0)

int main(void)
{
    sizes_of_arrays();
    EXPECT_LENGTHS(short);
    EXPECT_LENGTHS(uint16_t);
    EXPECT_LENGTHS(int);
    EXPECT_LENGTHS(unsigned);
    EXPECT_LENGTHS(long);
    EXPECT_LENGTHS(size_t);
    EXPECT_LENGTHS(long long);
    EXPECT_LENGTHS(uint64_t);
    return expected();
}
