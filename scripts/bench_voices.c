/*
 * The crate `voices` in plain C, for comparison in scripts/bench: voices by the formulas of docs/SOUND.md, one frame at
 * a time. A voice has a position, to which the phase increment is added, and a level, which rises by a whole part and a
 * remainder, so that no frame divides by a variable.
 *
 *   bench_voices ROUNDS    plays each voice of crates/bench_voices ROUNDS times, and prints its name, a checksum, the
 *                          number of frames, and the nanoseconds
 */
#include <stdint.h>
#include <stdio.h>
#include <stdlib.h>
#include <string.h>
#include <time.h>

#define POINTS 65536
#define BLOCK 512
#define BLOCKS 128

enum phase { ATTACK, DECAY, SUSTAIN, RELEASE };

/* The whole part of `amount * j / over`, for j = 0, 1, 2, .. */
struct line {
    uint32_t whole, rest, whole_step, rest_step, over;
};

struct voice {
    const int16_t *points;
    uint32_t end, loop_start, loop_end, step;
    int looped;
    enum phase phase;
    struct line line;
    uint32_t attenuation, level, held; /* the current attenuation, its gain, and the attenuation when the release began */
    int32_t loudness, left, right;
    uint64_t place;
};

static const uint32_t semitones[13] = { 65536, 69433, 73562, 77936, 82570, 87480, 92682,
                                        98193, 104032, 110218, 116772, 123715, 131072 };

static uint32_t ratio(uint32_t cents)
{
    if (cents == 1200)
        return 131072;
    uint32_t low = semitones[cents / 100], high = semitones[cents / 100 + 1];
    return low + (high - low) * (cents % 100) / 100;
}

static uint32_t gain(uint32_t attenuation)
{
    return attenuation < 960 ? ratio(1200 - 20 * (attenuation % 60)) >> (attenuation / 60 + 1) : 0;
}

static struct line line_of(uint32_t amount, uint32_t over)
{
    struct line line = { 0, 0, amount / over, amount % over, over };
    return line;
}

static void go_on(struct line *line)
{
    line->whole += line->whole_step;
    line->rest += line->rest_step;
    if (line->rest >= line->over) {
        line->rest -= line->over;
        line->whole++;
    }
}

/* The gain of the attenuation, computed once for equal attenuations in a row. */
static uint32_t falling(struct voice *v)
{
    if (v->line.whole != v->attenuation) {
        v->attenuation = v->line.whole;
        v->level = gain(v->attenuation);
    }
    go_on(&v->line);
    return v->level;
}

static int32_t next_level(struct voice *v)
{
    uint32_t level;
    switch (v->phase) {
    case ATTACK:
        level = v->line.whole;
        go_on(&v->line);
        return (int32_t)level;
    case DECAY:
        return (int32_t)falling(v);
    case RELEASE:
        return (int32_t)((uint64_t)v->held * falling(v) / 65536);
    default:
        return (int32_t)v->level;
    }
}

static int32_t next_point(struct voice *v)
{
    uint64_t i = v->place >> 16;
    int64_t part = (int64_t)(v->place & 65535);
    int32_t p = v->points[i], q;
    if (v->looped && i + 1 == v->loop_end)
        q = v->points[v->loop_start];
    else
        q = i + 1 < v->end ? v->points[i + 1] : 0;
    v->place += v->step;
    if (v->looped && v->place >= (uint64_t)v->loop_end << 16) {
        uint64_t from = (uint64_t)v->loop_start << 16;
        v->place = from + (v->place - from) % (((uint64_t)v->loop_end << 16) - from);
    }
    return p + (int32_t)((q - p) * part >> 16);
}

/* A number of thousandths, rounded down also below zero. */
static int32_t side(int32_t z, int32_t part)
{
    return (int32_t)((uint32_t)(z * part + 32768000) / 1000) - 32768;
}

static void add_frames(struct voice *v, int32_t *sums)
{
    for (int k = 0; k < BLOCK; k++) {
        if (!v->looped && v->place >= (uint64_t)v->end << 16)
            return;
        int32_t y = (next_point(v) * next_level(v)) >> 16;
        int32_t z = (y * v->loudness) >> 16;
        sums[2 * k] += side(z, v->left);
        sums[2 * k + 1] += side(z, v->right);
    }
}

/* The voice of crates/bench_voices before its first frame. It starts at another point in each of 64 rounds. */
static struct voice voice_of(const int16_t *points, int looped, enum phase phase, unsigned round)
{
    struct voice v;
    memset(&v, 0, sizeof v);
    v.points = points;
    v.place = (uint64_t)(round % 64) << 16;
    v.end = POINTS;
    v.loop_start = 1000;
    v.loop_end = 1400;
    v.looped = looped;
    v.step = looped ? 98193 : 40000;
    v.phase = phase;
    v.line = line_of(phase == ATTACK ? 65536 : 960, 70000);
    v.held = gain(100);
    v.level = phase == SUSTAIN ? v.held : 65536;
    v.loudness = (int32_t)gain(30);
    v.left = 400;
    v.right = 600;
    return v;
}

static uint64_t now(void)
{
    struct timespec at;
    clock_gettime(CLOCK_MONOTONIC, &at);
    return (uint64_t)at.tv_sec * 1000000000 + (uint64_t)at.tv_nsec;
}

/* Plays a voice in blocks, adds them up, and returns a checksum of the sums. */
static uint64_t play(const int16_t *points, int looped, enum phase phase, unsigned round)
{
    int32_t sums[2 * BLOCK] = { 0 };
    struct voice v = voice_of(points, looped, phase, round);
    for (int block = 0; block < BLOCKS; block++)
        add_frames(&v, sums);
    uint64_t sum = 0;
    for (int k = 0; k < 2 * BLOCK; k++)
        sum = sum * 31 + (uint64_t)(int64_t)sums[k];
    return sum;
}

int main(int argc, char **argv)
{
    static const char *const phases[] = { "attack", "decay", "sustain", "release" };
    static int16_t points[POINTS];
    if (argc != 2) {
        fprintf(stderr, "usage: bench_voices ROUNDS\n");
        return 1;
    }
    unsigned rounds = (unsigned)atoi(argv[1]);
    for (uint32_t i = 0; i < POINTS; i++)
        points[i] = (int16_t)(uint16_t)(i * 7919);
    for (int looped = 1; looped >= 0; looped--)
        for (int phase = ATTACK; phase <= RELEASE; phase++) {
            uint64_t sum = 0, started = now();
            for (unsigned round = 0; round < rounds; round++)
                sum = sum * 31 + play(points, looped, (enum phase)phase, round);
            printf("%s-%s %llu %llu %llu\n", looped ? "looped" : "unlooped", phases[phase], (unsigned long long)sum,
                   (unsigned long long)rounds * BLOCKS * BLOCK, (unsigned long long)(now() - started));
        }
    return 0;
}
