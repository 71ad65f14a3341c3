/* bayer_develop in threads: on a stack of just BAYER_STACK_BYTES, on the largest frame, and eight times at once. */
#include <pthread.h>
#include <stdlib.h>
#include <string.h>

#include "bayer.h"
#include "expect.h"
#include "noise.h"

enum { THREADS = 8, SIDE = 600, BLACK = 64 };

/* One call of develop: what is lent to it and what it returned. */
struct call {
    struct bayer_shape shape;
    size_t count;
    const uint16_t *mosaic;
    int32_t *red, *green, *blue, *work;
    uint8_t *map;
    struct bayer_returned returned;
};

static void *develop(void *argument)
{
    struct call *call = argument;
    call->returned =
        bayer_develop(call->shape, BLACK, call->mosaic, call->count, call->red, call->count, call->green, call->count, call->blue,
                      call->count, call->map, call->count, call->work, BAYER_WORK_LENGTH(call->shape.width, call->shape.height));
    return NULL;
}

/* A call with planes and a map of its own; 0 where there is no memory. */
static int prepare(struct call *call, size_t side, const uint16_t *mosaic, int32_t *work)
{
    const struct bayer_shape shape = {side, side, BAYER_GBRG};
    call->shape = shape;
    call->count = side * side;
    call->mosaic = mosaic;
    call->red = malloc(call->count * sizeof(int32_t));
    call->green = malloc(call->count * sizeof(int32_t));
    call->blue = malloc(call->count * sizeof(int32_t));
    call->map = malloc(call->count);
    call->work = work;
    call->returned.number = SIZE_MAX;
    return mosaic != NULL && call->red != NULL && call->green != NULL && call->blue != NULL && call->map != NULL && work != NULL;
}

static void release(struct call *call)
{
    free(call->red);
    free(call->green);
    free(call->blue);
    free(call->map);
}

static int done(const struct call *call)
{
    return call->returned.number == BAYER_DONE && call->returned.place == 0;
}

/* Whether the planes and the maps of both are the same. */
static int equal(const struct call *one, const struct call *other)
{
    const size_t bytes = one->count * sizeof(int32_t);
    return memcmp(one->red, other->red, bytes) == 0 && memcmp(one->green, other->green, bytes) == 0 &&
           memcmp(one->blue, other->blue, bytes) == 0 && memcmp(one->map, other->map, one->count) == 0;
}

/* Fills the planes and the map with other numbers than develop leaves. */
static void spoil(struct call *call)
{
    const size_t bytes = call->count * sizeof(int32_t);
    memset(call->red, 0xa5, bytes);
    memset(call->green, 0xa5, bytes);
    memset(call->blue, 0xa5, bytes);
    memset(call->map, 0xa5, call->count);
}

/* A checksum of the planes and the map, which every entry changes: two calls are compared with memory for one. */
static uint64_t checksum(const struct call *call)
{
    const int32_t *const planes[3] = {call->red, call->green, call->blue};
    uint64_t sum = 14695981039346656037u;
    for (int k = 0; k < 3; k++) {
        for (size_t entry = 0; entry < call->count; entry++) {
            sum = (sum ^ (uint32_t)planes[k][entry]) * 1099511628211u;
        }
    }
    for (size_t entry = 0; entry < call->count; entry++) {
        sum = (sum ^ call->map[entry]) * 1099511628211u;
    }
    return sum;
}

static void on_the_stated_stack(void)
{
    uint16_t *mosaic = noise(BAYER_PLANE_LENGTH(BAYER_SIDE_MOST, BAYER_SIDE_MOST));
    int32_t *work = malloc(BAYER_WORK_LENGTH(BAYER_SIDE_MOST, BAYER_SIDE_MOST) * sizeof *work);
    struct call call;
    if (!prepare(&call, BAYER_SIDE_MOST, mosaic, work)) {
        expect(0, "memory for the planes of 4,096 by 4,096");
        return;
    }
    pthread_attr_t attributes;
    pthread_t thread;
    spoil(&call);
    expect(pthread_attr_init(&attributes) == 0 && pthread_attr_setstacksize(&attributes, BAYER_STACK_BYTES) == 0 &&
               pthread_create(&thread, &attributes, develop, &call) == 0 && pthread_join(thread, NULL) == 0,
           "a thread with a stack of BAYER_STACK_BYTES runs");
    const int thread_done = done(&call);
    const uint64_t sum = checksum(&call);
    spoil(&call);
    develop(&call);
    expect(thread_done && done(&call), "it develops 4,096 by 4,096");
    expect(sum == checksum(&call), "its planes and its map are those of the main thread");
    release(&call);
    free(work);
    free(mosaic);
}

static void eight_at_once(void)
{
    uint16_t *mosaic = noise(BAYER_PLANE_LENGTH(SIDE, SIDE));
    int32_t *work = malloc(THREADS * BAYER_WORK_LENGTH(SIDE, SIDE) * sizeof *work);
    struct call calls[THREADS], alone;
    pthread_t threads[THREADS];
    int ready = work != NULL && prepare(&alone, SIDE, mosaic, work), alike = 1, all_done = 1, started = 0;
    for (int k = 0; ready && k < THREADS; k++) {
        ready = prepare(&calls[k], SIDE, mosaic, work + (size_t)k * BAYER_WORK_LENGTH(SIDE, SIDE));
    }
    if (!ready) {
        expect(0, "memory for nine frames");
        return;
    }
    develop(&alone);
    while (started < THREADS && pthread_create(&threads[started], NULL, develop, &calls[started]) == 0) {
        started++;
    }
    for (int k = 0; k < started; k++) {
        all_done = pthread_join(threads[k], NULL) == 0 && all_done;
    }
    for (int k = 0; k < THREADS; k++) {
        all_done = all_done && done(&calls[k]);
        alike = all_done && alike && equal(&alone, &calls[k]);
        release(&calls[k]);
    }
    expect(all_done, "eight threads develop one mosaic at once");
    expect(done(&alone) && alike, "their planes and maps are those of one thread alone");
    release(&alone);
    free(work);
    free(mosaic);
}

int main(void)
{
    on_the_stated_stack();
    eight_at_once();
    return expected();
}
