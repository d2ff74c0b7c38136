/*
 * The least time of a frame of a voice with vectorized loops: the stages of `voices` and `sound_envelopes` in plain C,
 * each a loop over 1,024 frames, and nothing between them. No frame is the last of a loop, a centibel or a note, no
 * buffer is cleared and no call is made for fewer frames.
 *
 *   clang -O3 -march=x86-64-v2 -o voice_stages scripts/voice_stages.c
 *   voice_stages           prints the nanoseconds of each stage per frame, the least of 400 rounds
 */
#include <stdint.h>
#include <stdio.h>
#include <string.h>
#include <time.h>

#define FRAMES 1024
#define ROUNDS 400
#define TURNS 20

static uint8_t bytes[4 * FRAMES];
static uint32_t pairs[FRAMES], step = 73457;
static int16_t run[FRAMES];
static uint16_t levels[FRAMES], others[FRAMES];
static int32_t sums[2 * FRAMES], middle[FRAMES];

/* Each frame's point and the next one, four frames at a time. */
static void reading(void)
{
    uint32_t place = 12345;
    for (size_t k = 0; k < FRAMES; k += 4) {
        memcpy(pairs + k, bytes + 2 * (place >> 16), 4);
        memcpy(pairs + k + 1, bytes + 2 * ((place + step) >> 16), 4);
        memcpy(pairs + k + 2, bytes + 2 * ((place + 2 * step) >> 16), 4);
        memcpy(pairs + k + 3, bytes + 2 * ((place + 3 * step) >> 16), 4);
        place += 4 * step;
    }
}

static void between(void)
{
    uint32_t place = 12345;
    for (size_t k = 0; k < FRAMES; k++) {
        int32_t here = (int16_t)pairs[k], next = (int16_t)(pairs[k] >> 16);
        run[k] = (int16_t)((int32_t)((uint32_t)here * 65536 + (uint32_t)(next - here) * (place & 65535)) >> 16);
        place += step;
    }
}

static void fill(uint16_t *list, uint16_t level)
{
    for (size_t k = 0; k < FRAMES; k++)
        list[k] = level;
}

static void filling(void)
{
    fill(levels, 30000);
    fill(others, 40000);
}

static int16_t softer(int16_t point, uint16_t gain)
{
    uint16_t upper = (uint16_t)(((int32_t)point * (int16_t)gain) >> 16);
    return (int16_t)(upper + (gain < 32768 ? 0 : (uint16_t)point));
}

static void softening(void)
{
    for (size_t k = 0; k < FRAMES; k++)
        run[k] = softer(softer(run[k], levels[k]), others[k]);
}

/* Adds half of each frame to the left and the right sum, which alternate. */
static void adding(void)
{
    for (size_t k = 0; k < FRAMES; k++) {
        int32_t half = run[k] >> 1;
        sums[2 * k] += half;
        sums[2 * k + 1] += half;
    }
}

/* Adds half of each frame to the sums of voices in the middle, to be added to both sides once a block. */
static void adding_once(void)
{
    for (size_t k = 0; k < FRAMES; k++)
        middle[k] += run[k] >> 1;
}

static double now(void)
{
    struct timespec at;
    clock_gettime(CLOCK_MONOTONIC, &at);
    return (double)at.tv_sec * 1e9 + (double)at.tv_nsec;
}

static double least(const char *name, void (*stage)(void))
{
    double best = 1e9;
    for (int round = 0; round < ROUNDS; round++) {
        double started = now();
        for (int turn = 0; turn < TURNS; turn++)
            stage();
        double taken = (now() - started) / (TURNS * FRAMES);
        best = taken < best ? taken : best;
    }
    printf("%-12s %.3f\n", name, best);
    return best;
}

int main(void)
{
    for (size_t i = 0; i < sizeof bytes; i++)
        bytes[i] = (uint8_t)(i * 7919 >> 3);
    double most = least("reading", reading) + least("between", between) + least("filling", filling) + least("softening", softening);
    double apart = most + least("adding", adding), once = most + least("adding once", adding_once);
    printf("together %.2f, with sums of the middle %.2f\n", apart, once);
    return 0;
}
