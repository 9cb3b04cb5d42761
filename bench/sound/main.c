// A frame of 16 channels of sound mixed of 16 channels in C, as ours is: the clip's bytes are copied, taken apart to
// samples, added gain by gain to sums of 64 bits, rounded down and saturated. A comparison of the times.
#include <stdbool.h>
#include <stdint.h>
#include <stdio.h>
#include <stdlib.h>
#include <string.h>
#include <time.h>

enum { CHANNELS = 16, COUNT = 2000, FRAME = 3 * COUNT * CHANNELS, FPS = 24 };

bool rattle_sound(const char *text, size_t text_length, const uint8_t *bytes, size_t n, uint32_t frames, uint8_t *last, size_t m);

struct gain { uint8_t from, to; uint32_t gain; };

static struct gain gains[CHANNELS * CHANNELS];
static size_t gain_count;

__attribute__((noinline)) static void decode(const uint8_t *bytes, int32_t *samples, size_t n) {
    for (size_t k = 0; k < n; k++)
        samples[k] = (int32_t)((uint32_t)bytes[3 * k] << 8 | (uint32_t)bytes[3 * k + 1] << 16 | (uint32_t)bytes[3 * k + 2] << 24) >> 8;
}

__attribute__((noinline)) static void add_gain(struct gain gain, const int32_t *samples, int64_t *sums, size_t inputs, size_t outputs, size_t n) {
    for (size_t i = 0; i < n; i++)
        sums[i * outputs + gain.to] += (int64_t)samples[i * inputs + gain.from] * gain.gain;
}

__attribute__((noinline)) static void encode(const int64_t *sums, uint8_t *bytes, size_t n) {
    for (size_t k = 0; k < n; k++) {
        int64_t v = sums[k] >> 16;
        v = v < -0x800000 ? -0x800000 : v > 0x7fffff ? 0x7fffff : v;
        bytes[3 * k] = v;
        bytes[3 * k + 1] = v >> 8;
        bytes[3 * k + 2] = v >> 16;
    }
}

static bool by_c(const uint8_t *bytes, uint32_t frames, uint8_t *last) {
    for (uint32_t f = 0; f < frames; f++) {
        int64_t *sums = calloc(COUNT * CHANNELS, sizeof *sums);
        uint8_t *read = malloc(FRAME);
        int32_t *samples = malloc(COUNT * CHANNELS * sizeof *samples);
        if (!sums || !read || !samples) return false;
        memcpy(read, bytes, FRAME);
        decode(read, samples, COUNT * CHANNELS);
        for (size_t k = 0; k < gain_count; k++) add_gain(gains[k], samples, sums, CHANNELS, CHANNELS, COUNT);
        encode(sums, last, COUNT * CHANNELS);
        free(sums);
        free(read);
        free(samples);
    }
    return true;
}

static double now(void) {
    struct timespec t;
    clock_gettime(CLOCK_MONOTONIC, &t);
    return t.tv_sec + t.tv_nsec / 1e9;
}

static uint8_t bytes[FRAME], ours[FRAME], theirs[FRAME];
static char text[32768];

static void write_project(uint32_t frames) {
    char *at = text;
    at += sprintf(at,
        "{\"title\":\"Sound\",\"kind\":\"test\",\"issued\":\"2024-05-01T12:00:00\",\"namespace\":\"6ba7b810-9dad-11d1-80b4-00c04fd430c8\","
        "\"width\":2048,\"height\":1080,\"fps\":%d,\"rate\":250,\"power\":13,\"channels\":%d,\"frames\":%u,"
        "\"assets\":[{\"id\":\"s\",\"kind\":\"pcm24\",\"file\":\"s.pcm\",\"channels\":%d}],\"picture\":[],"
        "\"sound\":[{\"asset\":\"s\",\"at\":0,\"from\":0,\"count\":%u,\"gains\":[",
        FPS, CHANNELS, frames, CHANNELS, frames);
    for (size_t k = 0; k < gain_count; k++)
        at += sprintf(at, "%s[%d,%d,%u]", k ? "," : "", gains[k].from, gains[k].to, gains[k].gain);
    sprintf(at, "]}]}");
}

static void compare(const char *name, uint32_t frames, int rounds) {
    double best_ours = 1e9, best_theirs = 1e9;
    write_project(frames);
    for (int round = 0; round < rounds; round++) {
        double start = now();
        if (!rattle_sound(text, strlen(text), bytes, FRAME, frames, ours, FRAME)) exit(printf("%s: no frames\n", name));
        double middle = now();
        if (!by_c(bytes, frames, theirs)) exit(printf("%s: no memory\n", name));
        double end = now();
        if (middle - start < best_ours) best_ours = middle - start;
        if (end - middle < best_theirs) best_theirs = end - middle;
    }
    if (memcmp(ours, theirs, FRAME)) exit(printf("%s: other samples\n", name));
    printf("%s: %.1f us a frame, in C %.1f: %.2f times its time; %.0f times as fast as it plays\n", name,
        best_ours / frames * 1e6, best_theirs / frames * 1e6, best_ours / best_theirs, frames / best_ours / FPS);
}

int main(int count, char **words) {
    uint32_t frames = count > 1 ? atoi(words[1]) : 10000;
    int rounds = count > 2 ? atoi(words[2]) : 3;
    srand(1);
    for (size_t k = 0; k < FRAME; k++) bytes[k] = rand() >> 8;
    for (int c = 0; c < CHANNELS; c++) gains[gain_count++] = (struct gain){c, c, 65536};
    compare("one to one", frames, rounds);
    gain_count = 0;
    for (int from = 0; from < CHANNELS; from++)
        for (int to = 0; to < CHANNELS; to++) gains[gain_count++] = (struct gain){from, to, 1000 + 97 * from + 13 * to};
    compare("by a full matrix", frames, rounds);
}
