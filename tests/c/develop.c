/* bayer_develop, bayer_clamp and bayer_curve called from C: the document's frame, also at a black level, one with every decision, planes
   clamped and curved, refusals that leave the buffers. */
#include <string.h>

#include "bayer.h"
#include "expect.h"

enum { COUNT = 4, WORK = 4 * COUNT };

static const struct bayer_shape shape = {2, 2, 0};
static const uint16_t mosaic[COUNT] = {100, 40, 61, 200};

/* The planes, the map and the work buffer that are lent to develop. */
struct lent {
    int32_t red[COUNT], green[COUNT], blue[COUNT], work[WORK];
    uint8_t map[COUNT];
};

/* Lends this many entries of the map and of work. */
static struct bayer_returned develop(struct bayer_shape of, size_t black, const uint16_t *samples, struct lent *lent, size_t map,
                                     size_t work)
{
    return bayer_develop(of, black, samples, COUNT, lent->red, COUNT, lent->green, COUNT, lent->blue, COUNT, lent->map, map, lent->work,
                         work);
}

static int is(struct bayer_returned returned, size_t number, size_t place)
{
    return returned.number == number && returned.place == place;
}

static void develops_the_example(void)
{
    const int32_t red[COUNT] = {100, 90, 111, 100};
    const int32_t green[COUNT] = {51, 40, 61, 51};
    const int32_t blue[COUNT] = {200, 190, 211, 200};
    const uint8_t map[COUNT] = {BAYER_EQUAL, BAYER_MEASURED, BAYER_MEASURED, BAYER_EQUAL};
    struct lent lent;
    memset(&lent, 0xa5, sizeof lent);
    expect(is(develop(shape, 0, mosaic, &lent, COUNT, WORK), 0, 0), "develop returns 0, 0");
    expect(memcmp(lent.red, red, sizeof red) == 0, "the red plane of the example");
    expect(memcmp(lent.green, green, sizeof green) == 0, "the green plane of the example");
    expect(memcmp(lent.blue, blue, sizeof blue) == 0, "the blue plane of the example");
    expect(memcmp(lent.map, map, sizeof map) == 0, "the decision map of the example");
}

/* The darkest sample, 40, may lie 64 under the black level. */
static void takes_the_black_level_off(void)
{
    const int32_t red[COUNT] = {-4, -14, 7, -4};
    const int32_t green[COUNT] = {-53, -64, -43, -53};
    const int32_t blue[COUNT] = {96, 86, 107, 96};
    const uint8_t map[COUNT] = {BAYER_EQUAL, BAYER_MEASURED, BAYER_MEASURED, BAYER_EQUAL};
    struct lent lent;
    memset(&lent, 0xa5, sizeof lent);
    expect(is(develop(shape, 40 + BAYER_UNDER_BLACK_MOST, mosaic, &lent, COUNT, WORK), 0, 0), "develop at 104 returns 0, 0");
    expect(memcmp(lent.red, red, sizeof red) == 0, "red less the black level, measured or not");
    expect(memcmp(lent.green, green, sizeof green) == 0, "green less the black level");
    expect(memcmp(lent.blue, blue, sizeof blue) == 0, "blue less the black level");
    expect(memcmp(lent.map, map, sizeof map) == 0, "the map is that of black level 0");
}

/* The larger frame of tests/reference, which has every code. */
static void maps_every_decision(void)
{
    enum { SIDE = 6, SITES = SIDE * SIDE };
    const struct bayer_shape of = {SIDE, SIDE, BAYER_GBRG};
    const uint16_t samples[SITES] = {
        140,  1023, 1023, 0,    600,  900,
        0,    1023, 1000, 0,    300,  0,
        1023, 0,    1023, 1023, 1023, 0,
        220,  0,    1023, 0,    100,  500,
        0,    0,    0,    0,    0,    1023,
        0,    0,    800,  0,    1023, 0,
    };
    const uint8_t codes[SITES] = {
        0, 3, 0, 6, 0, 1,
        3, 0, 3, 0, 6, 0,
        0, 5, 0, 6, 0, 5,
        5, 0, 4, 0, 6, 0,
        0, 6, 0, 4, 0, 5,
        4, 0, 4, 0, 2, 0,
    };
    int32_t red[SITES], green[SITES], blue[SITES], work[BAYER_WORK_LENGTH(SIDE, SIDE)];
    uint8_t map[BAYER_MAP_LENGTH(SIDE, SIDE)];
    memset(map, 0xa5, sizeof map);
    const struct bayer_returned returned =
        bayer_develop(of, 64, samples, SITES, red, SITES, green, SITES, blue, SITES, map, sizeof map, work, BAYER_WORK_LENGTH(SIDE, SIDE));
    expect(is(returned, 0, 0) && memcmp(map, codes, sizeof codes) == 0, "the map of a frame with every decision");
}

/* Of the level 105 the sample 40 is 65 under, and two samples behind it are too high. */
static void refuses(void)
{
    const size_t high = BAYER_BLACK_MOST + 1, black = 105;
    const uint16_t bright[COUNT] = {100, 40, 1024, 1025};
    const struct bayer_shape narrow = {1, 2, 9};
    const struct bayer_shape phase_4 = {2, 2, 4};
    const struct bayer_shape wide = {3, 2, 0};
    struct lent lent, before;
    memset(&lent, 0xa5, sizeof lent);
    memcpy(&before, &lent, sizeof lent);
    expect(is(develop(narrow, high, bright, &lent, 3, 3), 1, 0), "develop tests the size first: 1, 0");
    expect(is(develop(phase_4, high, bright, &lent, 3, 3), 2, 0), "then the phase: 2, 0");
    expect(is(develop(wide, high, bright, &lent, 3, 3), 11, 0), "then the black level: 11, 0");
    expect(is(develop(wide, SIZE_MAX, bright, &lent, 3, 3), 11, 0), "also the greatest of all: 11, 0");
    expect(is(develop(wide, black, bright, &lent, 3, 3), 3, 0), "then the mosaic's length: 3, 0");
    expect(is(develop(shape, black, bright, &lent, COUNT, WORK - 1), 4, 0), "then the other lengths, of work: 4, 0");
    expect(is(develop(shape, black, bright, &lent, COUNT - 1, WORK), 4, 0), "and of the map: 4, 0");
    expect(is(develop(shape, black, bright, &lent, COUNT, WORK), 5, 2), "then all samples for 1,023: 5 and the place of the first");
    expect(is(develop(shape, black, mosaic, &lent, COUNT, WORK), 12, 1), "then for the black level: 12 and the place of the first");
    expect(memcmp(&lent, &before, sizeof lent) == 0, "a refused develop leaves every buffer");
}

static void clamps(void)
{
    const int32_t plane[5] = {INT32_MIN, -1, 512, 1024, INT32_MAX};
    const int32_t held[5] = {0, 0, 512, 1023, 1023};
    int32_t clamped[5] = {7, 7, 7, 7, 7};
    expect(is(bayer_clamp(plane, 5, clamped, 4), 4, 0), "clamp refuses lengths that differ: 4, 0");
    expect(clamped[0] == 7 && clamped[4] == 7, "a refused clamp leaves the plane");
    expect(is(bayer_clamp(plane, 5, clamped, 5), 0, 0), "clamp returns 0, 0");
    expect(memcmp(clamped, held, sizeof held) == 0, "each value is held to 0..1,023");
}

static void curves(void)
{
    const int32_t plane[7] = {0, 1, 2, 511, 512, 1021, 1023};
    const int32_t entries[7] = {0, 32, 45, 723, 724, 1022, 1023};
    int32_t curved[7] = {7, 7, 7, 7, 7, 7, 7};
    expect(is(bayer_curve(plane, 7, curved, 7), 0, 0), "curve returns 0, 0");
    expect(memcmp(curved, entries, sizeof entries) == 0, "each number is taken to its entry");
}

static void curves_every_number(void)
{
    enum { MOST = BAYER_SAMPLE_MOST };
    int32_t plane[MOST + 1], curved[MOST + 1];
    for (int32_t v = 0; v <= MOST; v++) {
        plane[v] = v;
        curved[v] = -1;
    }
    int by_rule = is(bayer_curve(plane, MOST + 1, curved, MOST + 1), 0, 0) && curved[0] == 0;
    for (int32_t v = 1; v <= MOST; v++) {
        const int64_t t = curved[v];
        by_rule = by_rule && t > 0 && (2 * t - 1) * (2 * t - 1) < 4092 * v && 4092 * v < (2 * t + 1) * (2 * t + 1);
    }
    expect(by_rule, "all 1,024 entries follow the rule");
}

static void curve_refuses(void)
{
    const int32_t below[4] = {5, 1023, -1, 1024}, above[4] = {5, 1024, -1, 1023}, least[4] = {INT32_MIN, 0, 0, 0};
    const int32_t most[4] = {0, 0, 0, INT32_MAX}, kept[4] = {7, 7, 7, 7};
    int32_t curved[4] = {7, 7, 7, 7};
    expect(is(bayer_curve(below, 4, curved, 3), 4, 0), "curve refuses lengths that differ first: 4, 0");
    expect(is(bayer_curve(below, 3, curved, 4), 4, 0), "whichever is the longer: 4, 0");
    expect(is(bayer_curve(below, 4, curved, 4), 13, 2), "then the plane, for -1: 13 and the place of the first");
    expect(is(bayer_curve(above, 4, curved, 4), 13, 1), "and for 1,024: 13 and the place of the first");
    expect(is(bayer_curve(least, 4, curved, 4), 13, 0), "also for the least number of all: 13, 0");
    expect(is(bayer_curve(most, 4, curved, 4), 13, 3), "and the greatest: 13, 3");
    expect(memcmp(curved, kept, sizeof kept) == 0, "a refused curve leaves the plane");
}

int main(void)
{
    develops_the_example();
    takes_the_black_level_off();
    maps_every_decision();
    refuses();
    clamps();
    curves();
    curves_every_number();
    curve_refuses();
    return expected();
}
