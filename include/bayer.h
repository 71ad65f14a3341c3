/* Develops frames of 10-bit Bayer samples at a black level to red, green and blue planes and tells how each green was decided, holds planes
   to 0..1,023, applies the square-root tone curve to them, and reads and writes frame files. Usable from C99 and C++11 on.
   Link libbayer.a or libbayer.so. The frame file is told by FORMAT.md, installed as share/doc/bayer/FORMAT.md under the
   prefix of this header.

   Every input is answered: a call returns 0, 0 or the number and place of a refusal, and a refusal leaves every buffer as it was.
   Arguments stand in one order in all calls: shape, black level, mosaic, the planes red, green and blue, map, work, each buffer before its
   length.

   What the caller owes:
   - a pointer is valid for its length, which counts entries and not bytes, and is aligned for its type;
   - a pointer is not null, unless its length is 0: such a buffer is empty, whatever its pointer, and nothing is read or written there;
   - lent buffers do not overlap, so nothing is developed, clamped or curved in place;
   - during a call nothing else writes to its buffers, and nothing else reads those that it fills.

   What a call does besides: nothing. It allocates nothing, keeps nothing between calls, has no global state, prints nothing, and calls
   nothing of the caller's. Calls may run in any number of threads at once; they may read the same mosaic. A call takes at most
   BAYER_STACK_BYTES of the caller's stack, on any frame.

   Left out: white balance, colour matrices, lenses, filter arrays other than the four phases of Bayer's, rows with a stride, and planes
   interleaved in one buffer. Planes, mosaics and maps are whole: entry i*W + j is row i, column j.

   Platforms: x86-64 Linux, on any such processor. libbayer.a takes memcpy and memset from the C library, libbayer.so from glibc. Not
   others: no 32-bit x86, no ARM, no Windows, no macOS. */
#ifndef BAYER_H
#define BAYER_H

#include <stddef.h>
#include <stdint.h>

#ifdef __cplusplus
extern "C" {
#endif

/* The version of this header; bayer_version() tells that of the linked library. The first number changes where a program has to be
   built again, the second where a call is new. */
#define BAYER_VERSION_MAJOR 3
#define BAYER_VERSION_MINOR 1
#define BAYER_VERSION_PATCH 1
#define BAYER_VERSION "3.1.1"

/* A call takes at most this many bytes of the caller's stack: a thread with just this stack may develop from its first function. */
#define BAYER_STACK_BYTES 589824

/* What the calls admit: W and H from least to most, samples and develop's black level from 0 to most; curve's plane has numbers from 0 to
   BAYER_SAMPLE_MOST. */
#define BAYER_SIDE_LEAST 2
#define BAYER_SIDE_MOST 4096
#define BAYER_SAMPLE_MOST 1023
#define BAYER_BLACK_MOST 255

/* How far a sample may lie under the black level. */
#define BAYER_UNDER_BLACK_MOST 64

/* A number of any integer type as size_t. In C++ `+ 0LL` makes of each type another than size_t, so that the cast is
   useless to none. */
#ifdef __cplusplus
#define BAYER_AS_SIZE(number) static_cast<size_t>((number) + 0LL)
#else
#define BAYER_AS_SIZE(number) ((size_t)(number))
#endif

/* Entries of a mosaic or a plane, bytes of the decision map, least entries of develop's work buffer, and bytes of the frame file, for
   sides within the range. */
#define BAYER_PLANE_LENGTH(width, height) (BAYER_AS_SIZE(width) * BAYER_AS_SIZE(height))
#define BAYER_MAP_LENGTH(width, height) BAYER_PLANE_LENGTH(width, height)
#define BAYER_WORK_LENGTH(width, height) (4 * BAYER_PLANE_LENGTH(width, height))
#define BAYER_FILE_LENGTH(width, height) (512 * (1 + (BAYER_PLANE_LENGTH(width, height) + 399) / 400))

/* Entries that are enough for read, whatever frame a file of this many bytes holds: for use before W and H are known. It is at most 799
   entries more than W*H. No file needs more than 4,096*4,096. */
#define BAYER_READ_LENGTH(file_length) (BAYER_AS_SIZE(file_length) / 512 * 400)

/* The order of the colours along row 0 and then row 1. */
enum bayer_phase {
    BAYER_RGGB = 0,
    BAYER_GRBG = 1,
    BAYER_GBRG = 2,
    BAYER_BGGR = 3
};

/* How a site's green was decided: the codes of the decision map. Across is along the row, down is along the column. */
enum bayer_decision {
    BAYER_MEASURED = 0,      /* a green site: the sample */
    BAYER_EQUAL = 1,         /* the gradients across and down are equal: the mean of the estimates across and down */
    BAYER_STRONG_ACROSS = 2, /* the gradient across is much the lower: the estimate across */
    BAYER_STRONG_DOWN = 3,   /* the gradient down is much the lower: the estimate down */
    BAYER_WEAK_ACROSS = 4,   /* neither is; resolved by the sites around: the estimate across */
    BAYER_WEAK_DOWN = 5,     /* the same: the estimate down */
    BAYER_WEAK_TO_MEAN = 6   /* the same: the mean of both */
};

/* The numbers that the calls return, and the place that comes with each. The order of the tests is 1, 2, 11, 3, 4, 5, 12 in develop, every
   sample being tested for 5 before the first is refused by 12; 1 to 5 in write; 4, 13 in curve; read's order is told by FORMAT.md. */
enum bayer_number {
    BAYER_DONE = 0,           /* 0: success */
    BAYER_SIZE = 1,           /* 0: W or H below 2 or above 4,096 (develop, write) */
    BAYER_PHASE = 2,          /* 0: phase above 3 (develop, write) */
    BAYER_MOSAIC_LENGTH = 3,  /* 0: the mosaic's length is not W*H (develop, write) */
    BAYER_BUFFER_LENGTH = 4,  /* 0: another buffer has a length that is not allowed (all) */
    BAYER_SAMPLE = 5,         /* i*W + j of the first: a sample above 1,023 (develop, write) */
    BAYER_BLOCK_COUNT = 6,    /* 0: length below 512, no multiple of 512, or not the header's count of blocks (read) */
    BAYER_CHECK = 7,          /* block: its check differs (read) */
    BAYER_HEADER = 8,         /* 0: tag, W, H or phase not allowed (read) */
    BAYER_BLOCK_NUMBER = 9,   /* block: its number differs (read) */
    BAYER_FILLER = 10,        /* block: a filler byte or sample is not zero (read) */
    BAYER_BLACK_LEVEL = 11,   /* 0: the black level is above 255 (develop) */
    BAYER_UNDER_BLACK = 12,   /* i*W + j of the first: a sample more than 64 under the black level (develop) */
    BAYER_UNCLAMPED = 13      /* position of the first: a number in the plane below 0 or above 1,023 (curve) */
};

/* W, H and the phase of a frame. */
struct bayer_shape {
    size_t width;
    size_t height;
    size_t phase;
};

/* BAYER_DONE, 0 on success, otherwise the refusal's number and place. */
struct bayer_returned {
    size_t number;
    size_t place;
};

/* The same, and on success W, H and the phase; 0 for these on a refusal. */
struct bayer_read_returned {
    size_t number;
    size_t place;
    size_t width;
    size_t height;
    size_t phase;
};

/* Reads a frame file into samples, which has W*H entries or more; those past W*H stay. */
struct bayer_read_returned bayer_read(const uint8_t *file, size_t file_length, uint16_t *samples, size_t samples_length);

/* Writes a frame into file, which has exactly BAYER_FILE_LENGTH(W, H) bytes. */
struct bayer_returned bayer_write(struct bayer_shape shape, const uint16_t *mosaic, size_t mosaic_length, uint8_t *file,
                                  size_t file_length);

/* Develops a frame into red, green and blue, unclamped. black is the black level, the sample that stands for no light, at most
   BAYER_BLACK_MOST; no sample may lie more than BAYER_UNDER_BLACK_MOST under it. It goes with the call and is no part of the frame, and 0
   is right for samples that had it taken off before. The samples are developed as they came, and black is taken off each of the three
   rounded numbers: the sample measured at a site shows there as sample less black, and each number lies in -2,046 - black to 3,069 - black.
   Where every sample is at least black, planes and map are those that the samples less black give at 0.
   Into map goes the decision code of each site, enum bayer_decision; it does not depend on black. Transposing a frame exchanges 2 with 3
   and 4 with 5 at matching points; mirroring it, trading red and blue and adding a constant keep every code.
   The mosaic and the planes have exactly W*H entries, map has exactly BAYER_MAP_LENGTH(W, H), work has BAYER_WORK_LENGTH(W, H) or more. No
   answer depends on what the planes, map and work held before; after success work may hold anything. */
struct bayer_returned bayer_develop(struct bayer_shape shape, size_t black, const uint16_t *mosaic, size_t mosaic_length, int32_t *red,
                                    size_t red_length, int32_t *green, size_t green_length, int32_t *blue, size_t blue_length,
                                    uint8_t *map, size_t map_length, int32_t *work, size_t work_length);

/* Fills clamped with each value of plane held to 0..1,023; both have the same length, which may be any. */
struct bayer_returned bayer_clamp(const int32_t *plane, size_t plane_length, int32_t *clamped, size_t clamped_length);

/* Applies the square-root tone curve of display panels: fills curved with the curve's entry for each number of plane, which is clamped; both
   have the same length, which may be any. Entry 0 is 0, and for v from 1 to 1,023 the entry t is the whole number with
   (2*t - 1)^2 < 4,092*v < (2*t + 1)^2, the square root of 1,023*v rounded. No entry is below the one before it, none is below its v, and
   none is above 1,023. */
struct bayer_returned bayer_curve(const int32_t *plane, size_t plane_length, int32_t *curved, size_t curved_length);

/* What a returned number says, in a few words of English; a text also for a number that no call returns. Never null, never to be freed. */
const char *bayer_text(size_t number);

/* What a decision code says, in a few words of English; a text also for a code that no map holds. Never null, never to be freed. */
const char *bayer_decision_text(size_t code);

/* The linked library's version, as BAYER_VERSION is written. */
const char *bayer_version(void);

#ifdef __cplusplus
}
#endif

#endif
