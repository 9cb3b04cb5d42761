// The quantiser's loops in C, and a comparison of the times of a picture of 2048 x 1080 samples: each sub-band row by row.
#include <stdint.h>
#include <stdio.h>
#include <stdlib.h>
#include <string.h>
#include <time.h>

enum { LL, HL, LH, HH, WIDTH = 2048, HEIGHT = 1080 };

void rattle_quantise(uint8_t level, uint8_t kind, const int32_t *values, size_t n, uint16_t *out, size_t n_out);

static uint32_t magnitude(int32_t v) { return v < 0 ? -(uint32_t)v : (uint32_t)v; }
static uint16_t word(uint32_t m, int32_t v) { return (uint16_t)((v < 0 ? 0x8000 : 0) + m); }

__attribute__((noinline)) static void lowest(const int32_t *values, uint16_t *out, size_t n) {
    for (size_t i = 0; i < n; i++) {
        uint32_t m = magnitude(values[i]) >> 11;
        out[i] = word(m < 0x3fff ? m : 0x3fff, values[i]);
    }
}
__attribute__((noinline)) static void fifths(uint32_t shift, const int32_t *values, uint16_t *out, size_t n) {
    for (size_t i = 0; i < n; i++)
        out[i] = word((magnitude(values[i]) >> shift) * 52429 >> 18, values[i]);
}
__attribute__((noinline)) static void ninths(uint32_t shift, const int32_t *values, uint16_t *out, size_t n) {
    for (size_t i = 0; i < n; i++)
        out[i] = word((magnitude(values[i]) >> shift) * 58255 >> 19, values[i]);
}
__attribute__((noinline)) static void wide_ninths(uint32_t shift, const int32_t *values, uint16_t *out, size_t n) {
    for (size_t i = 0; i < n; i++)
        out[i] = word((uint32_t)((uint64_t)(magnitude(values[i]) >> shift) * 954437177 >> 33), values[i]);
}
static void c_quantise(uint8_t level, uint8_t kind, const int32_t *values, size_t n, uint16_t *out, size_t n_out) {
    static const uint8_t more_at[] = {3, 3, 2, 2, 1, 0};
    uint32_t more = more_at[level];
    (void)n_out;
    if (kind == LL)
        lowest(values, out, n);
    else if (kind == HH)
        fifths(10 + more, values, out, n);
    else if (more < 2)
        wide_ninths(8 + more, values, out, n);
    else
        ninths(8 + more, values, out, n);
}

typedef void quantiser(uint8_t, uint8_t, const int32_t *, size_t, uint16_t *, size_t);

static double now(void) {
    struct timespec t;
    clock_gettime(CLOCK_PROCESS_CPUTIME_ID, &t);
    return t.tv_sec + t.tv_nsec * 1e-9;
}

// The rows of all sub-bands, or of one level's alone where only isn't 0, one behind the other as they lie in memory;
// so many times.
static double picture(quantiser *f, int only, int times, const int32_t *values, uint16_t *out) {
    double start = now();
    for (int time = 0; time < times; time++) {
        size_t at = 0;
        for (int level = 1; level <= 5; level++)
            for (int kind = level == 5 ? LL : HL; kind <= HH; kind++) {
                size_t half = (size_t)1 << (level - 1);
                size_t columns = (WIDTH - (kind == HL || kind == HH ? half : 0) + 2 * half - 1) >> level;
                size_t rows = (HEIGHT - (kind == LH || kind == HH ? half : 0) + 2 * half - 1) >> level;
                if (only == 0 || only == level)
                    for (size_t row = 0; row < rows; row++)
                        f(level, kind, values + at + row * columns, columns, out + at + row * columns, columns);
                at += columns * rows;
            }
    }
    return (now() - start) / times;
}

static void compare(const char *what, int only, int times, const int32_t *values, uint16_t *c_out, uint16_t *rattle_out,
                    int rounds) {
    double c_least = 1e9, rattle_least = 1e9;
    for (int round = 0; round < rounds; round++) {
        double c = picture(c_quantise, only, times, values, c_out);
        double rattle = picture(rattle_quantise, only, times, values, rattle_out);
        if (c < c_least) c_least = c;
        if (rattle < rattle_least) rattle_least = rattle;
    }
    if (memcmp(c_out, rattle_out, (size_t)WIDTH * HEIGHT * 2) != 0) {
        printf("the quantised values differ\n");
        exit(1);
    }
    printf("  %-15s C %.4f ms, Rattle %.4f ms, ratio %.2f\n", what, c_least * 1e3, rattle_least * 1e3,
           rattle_least / c_least);
}

int main(int argc, char **argv) {
    int rounds = argc > 1 ? atoi(argv[1]) : 25;
    size_t n = (size_t)WIDTH * HEIGHT;
    int32_t *values = malloc(n * 4);
    uint16_t *c_out = calloc(n, 2), *rattle_out = calloc(n, 2);
    uint32_t draw = 1;
    for (size_t i = 0; i < n; i++) {
        draw ^= draw << 13;
        draw ^= draw >> 17;
        draw ^= draw << 5;
        int32_t v = (int32_t)(draw & 0x3ffffff) >> (draw >> 26 & 15);
        values[i] = draw >> 31 ? -v : v;
    }
    compare("a whole picture", 0, 1, values, c_out, rattle_out, rounds);
    compare("level 1", 1, 1, values, c_out, rattle_out, rounds);
    compare("level 4", 4, 64, values, c_out, rattle_out, rounds);
    compare("level 5", 5, 256, values, c_out, rattle_out, rounds);
    return 0;
}
