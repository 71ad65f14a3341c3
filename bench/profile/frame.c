/* Develops a frame of 2,048 by 2,048 samples of a texture, as bench/src/textures.rs makes them, over and over for some seconds of the
   thread's time, and prints where each tick of a timer found it; where counters are linked, develops it once and prints them. */
#define _GNU_SOURCE
#include <signal.h>
#include <stdio.h>
#include <stdlib.h>
#include <string.h>
#include <sys/time.h>
#include <time.h>
#include <ucontext.h>

#include "bayer.h"

enum { SIDE = 2048, SITES = SIDE * SIDE, MOST = 1 << 20 };

static uint16_t mosaic[SITES];
static int32_t red[SITES], green[SITES], blue[SITES], work[4 * SITES];
static uint8_t map[SITES];

static uint64_t noise(uint64_t site, uint64_t bound) {
    uint64_t mixed = site * UINT64_C(0x9e3779b97f4a7c15);
    mixed = (mixed ^ mixed >> 30) * UINT64_C(0xbf58476d1ce4e5b9);
    mixed = (mixed ^ mixed >> 27) * UINT64_C(0x94d049bb133111eb);
    return (mixed ^ mixed >> 31) % bound;
}

static uint64_t wave(uint64_t position, uint64_t height) {
    uint64_t within = position % (2 * height);
    return within < height ? within : 2 * height - within;
}

static uint64_t sample(const char *texture, uint64_t site) {
    if (!strcmp(texture, "noise")) return noise(site, 1024);
    if (!strcmp(texture, "smooth")) return 200 + wave(2 * (site / SIDE), 331) + wave(3 * (site % SIDE), 277) + noise(site, 4);
    if (!strcmp(texture, "glaze")) return 500 + noise(site, 3);
    if (!strcmp(texture, "flat")) return 500;
    fprintf(stderr, "no texture %s\n", texture);
    exit(2);
}

static double core_time(void) {
    struct timespec t;
    clock_gettime(CLOCK_THREAD_CPUTIME_ID, &t);
    return (double)t.tv_sec + (double)t.tv_nsec / 1e9;
}

#ifdef KIND_counts
extern uint64_t counts[1000];

static void start(void) {}

static void finish(void) {
    for (int k = 0; k < 1000; k += 2) printf("%llu %llu\n", (unsigned long long)counts[k], (unsigned long long)counts[k + 1]);
}
#else
static uintptr_t found[MOST];
static volatile size_t ticks;

/* A place outside of the program is in memcpy or memset, which keep nothing on the stack: the time is their caller's. */
static void tick(int number, siginfo_t *info, void *context) {
    extern char __executable_start, etext;
    greg_t *registers = ((ucontext_t *)context)->uc_mcontext.gregs;
    uintptr_t at = (uintptr_t)registers[REG_RIP];
    (void)number, (void)info;
    if (at < (uintptr_t)&__executable_start || at >= (uintptr_t)&etext) at = *(uintptr_t *)registers[REG_RSP] - 1;
    if (ticks < MOST) found[ticks++] = at;
}

static void start(void) {
    struct sigaction action = {.sa_sigaction = tick, .sa_flags = SA_SIGINFO | SA_RESTART};
    struct itimerval every = {{0, 997}, {0, 997}};
    sigaction(SIGPROF, &action, NULL);
    setitimer(ITIMER_PROF, &every, NULL);
}

static void finish(void) {
    struct itimerval never = {{0, 0}, {0, 0}};
    setitimer(ITIMER_PROF, &never, NULL);
    for (size_t k = 0; k < ticks; k++) printf("%#llx\n", (unsigned long long)found[k]);
    fprintf(stderr, "%zu ticks\n", ticks);
}
#endif

int main(int count, char **words) {
    struct bayer_shape shape = {SIDE, SIDE, BAYER_RGGB};
    if (count != 3) return 2;
    for (size_t k = 0; k < SITES; k++) mosaic[k] = (uint16_t)sample(words[1], k);
    memset(red, 1, sizeof red), memset(green, 1, sizeof green), memset(blue, 1, sizeof blue);
    memset(work, 1, sizeof work), memset(map, 1, sizeof map);
    double begun = core_time(), seconds = atof(words[2]);
    start();
    do {
        struct bayer_returned answer =
            bayer_develop(shape, 0, mosaic, SITES, red, SITES, green, SITES, blue, SITES, map, SITES, work, 4 * (size_t)SITES);
        if (answer.number) return 1;
    } while (core_time() - begun < seconds);
    finish();
    return 0;
}
