// The columns of a plane by whole rows in rounds, and its rows across with scale and clamp, in C, and a comparison with ours.
#include <stdint.h>
#include <stdio.h>
#include <stdlib.h>
#include <string.h>
#include <time.h>

enum { COLUMNS = 2048, HEIGHT = 1080, HALF = COLUMNS / 2 };

void rattle_columns(int32_t *plane, size_t n, size_t columns, size_t height);
void rattle_low(const int32_t *row, size_t n, int32_t *low, size_t lows, int32_t *high, size_t highs);
void rattle_high(const int32_t *row, size_t n, int32_t *low, size_t lows, int32_t *high, size_t highs);

#define PART(k, s) ((int32_t)((int64_t)(k) * (s) >> 16))

// A negative factor is taken from the sum, as ours is.
#define FIRST(own, s) ((own) + PART(27123, s) - (s) - (s))
#define SECOND(own, s) ((own) + PART(62064, s) - (s))
#define THIRD(own, s) ((own) + PART(57862, s))
#define FOURTH(own, s) ((own) + PART(29066, s))

#define LIFT(name, STEP) \
    __attribute__((noinline)) static void name(int32_t *row, const int32_t *above, const int32_t *below, size_t n) \
    { \
        for (size_t x = 0; x < n; x++) { \
            int32_t s = above[x] + below[x]; \
            row[x] = STEP(row[x], s); \
        } \
    }
LIFT(first, FIRST)
LIFT(second, SECOND)
LIFT(third, THIRD)
LIFT(fourth, FOURTH)

static void lift(void (*step)(int32_t *, const int32_t *, const int32_t *, size_t), int32_t *plane, size_t columns, size_t height, size_t y)
{
    if (y >= height)
        return;
    size_t above = y == 0 ? 1 : y - 1, below = y + 1 == height ? height - 2 : y + 1;
    step(plane + y * columns, plane + above * columns, plane + below * columns, columns);
}

__attribute__((noinline)) static void c_columns(int32_t *plane, size_t columns, size_t height)
{
    lift(first, plane, columns, height, 1);
    lift(second, plane, columns, height, 0);
    for (size_t j = 0; j < height - height / 2; j++) {
        lift(first, plane, columns, height, 2 * j + 3);
        lift(second, plane, columns, height, 2 * j + 2);
        lift(third, plane, columns, height, 2 * j + 1);
        lift(fourth, plane, columns, height, 2 * j);
    }
}

#define TAKE(name, K) \
    __attribute__((noinline)) static void name(const int32_t *row, int32_t *even, size_t evens, int32_t *odd, size_t odds) \
    { \
        for (size_t i = 0; i < odds; i++) { \
            even[i] = PART(K, row[2 * i]); \
            odd[i] = PART(K, row[2 * i + 1]); \
        } \
        if (odds < evens) \
            even[odds] = PART(K, row[2 * odds]); \
    }
TAKE(take_low, 53274)
TAKE(take_high, 80621)

#define ODD(name, STEP) \
    __attribute__((noinline)) static void name(int32_t *odd, size_t odds, const int32_t *even, size_t evens) \
    { \
        size_t last = evens - 1; \
        for (size_t i = 0; i < last; i++) { \
            int32_t s = even[i] + even[i + 1]; \
            odd[i] = STEP(odd[i], s); \
        } \
        if (last < odds) { \
            int32_t s = even[last] + even[last]; \
            odd[last] = STEP(odd[last], s); \
        } \
    }
ODD(first_across, FIRST)
ODD(third_across, THIRD)

#define EVEN(name, STEP) \
    __attribute__((noinline)) static void name(int32_t *even, size_t evens, const int32_t *odd, size_t odds) \
    { \
        int32_t s = odd[0] + odd[0]; \
        even[0] = STEP(even[0], s); \
        for (size_t i = 1; i < odds; i++) { \
            s = odd[i - 1] + odd[i]; \
            even[i] = STEP(even[i], s); \
        } \
        if (odds < evens) { \
            s = odd[odds - 1] + odd[odds - 1]; \
            even[odds] = STEP(even[odds], s); \
        } \
    }
EVEN(second_across, SECOND)
EVEN(fourth_across, FOURTH)

#define CLAMP(name, K) \
    __attribute__((noinline)) static void name(int32_t *samples, size_t n) \
    { \
        for (size_t i = 0; i < n; i++) { \
            int32_t v = PART(K, samples[i]); \
            v = v < 0x4000000 ? v : 0x4000000; \
            samples[i] = v > -0x4000000 ? v : -0x4000000; \
        } \
    }
CLAMP(clamp_low, 53274)
CLAMP(clamp_high, 80621)

static void across(int32_t *low, size_t lows, int32_t *high, size_t highs)
{
    first_across(high, highs, low, lows);
    second_across(low, lows, high, highs);
    third_across(high, highs, low, lows);
    fourth_across(low, lows, high, highs);
    clamp_low(low, lows);
    clamp_high(high, highs);
}

__attribute__((noinline)) static void c_low(const int32_t *row, size_t n, int32_t *low, size_t lows, int32_t *high, size_t highs)
{
    (void)n;
    take_low(row, low, lows, high, highs);
    across(low, lows, high, highs);
}

__attribute__((noinline)) static void c_high(const int32_t *row, size_t n, int32_t *low, size_t lows, int32_t *high, size_t highs)
{
    (void)n;
    take_high(row, low, lows, high, highs);
    across(low, lows, high, highs);
}

static int32_t source[COLUMNS * HEIGHT], plane[COLUMNS * HEIGHT], bands[COLUMNS * HEIGHT];

static double seconds(void)
{
    struct timespec t;
    clock_gettime(CLOCK_PROCESS_CPUTIME_ID, &t);
    return t.tv_sec + t.tv_nsec * 1e-9;
}

static uint64_t checksum(const int32_t *samples)
{
    uint64_t sum = 0;
    for (size_t i = 0; i < COLUMNS * HEIGHT; i++)
        sum = sum * 1099511628211u + (uint32_t)samples[i];
    return sum;
}

typedef void finish(const int32_t *, size_t, int32_t *, size_t, int32_t *, size_t);

static void rows(finish *low, finish *high)
{
    for (size_t y = 0; y < HEIGHT; y++)
        (y % 2 ? high : low)(plane + y * COLUMNS, COLUMNS, bands + y * COLUMNS, HALF, bands + y * COLUMNS + HALF, HALF);
}

int main(int argc, char **argv)
{
    int rounds = argc > 1 ? atoi(argv[1]) : 10;
    double best[4] = {1e9, 1e9, 1e9, 1e9};
    uint64_t sums[4] = {0};
    uint32_t seed = 1;
    for (size_t i = 0; i < COLUMNS * HEIGHT; i++) {
        seed = seed * 1664525 + 1013904223;
        source[i] = (int32_t)(seed >> 7) - (1 << 24);
    }
    for (int round = 0; round < rounds; round++)
        for (int ours = 0; ours < 2; ours++) {
            memcpy(plane, source, sizeof plane);
            double start = seconds();
            if (ours)
                rattle_columns(plane, COLUMNS * HEIGHT, COLUMNS, HEIGHT);
            else
                c_columns(plane, COLUMNS, HEIGHT);
            double middle = seconds();
            if (ours)
                rows(rattle_low, rattle_high);
            else
                rows(c_low, c_high);
            double end = seconds();
            sums[ours] = checksum(plane);
            sums[2 + ours] = checksum(bands);
            if (middle - start < best[ours])
                best[ours] = middle - start;
            if (end - middle < best[2 + ours])
                best[2 + ours] = end - middle;
        }
    if (sums[0] != sums[1] || sums[2] != sums[3]) {
        puts("the results differ");
        return 1;
    }
    printf("columns: ours %.2f ms, C %.2f ms, ratio %.2f\n", best[1] * 1e3, best[0] * 1e3, best[1] / best[0]);
    printf("across:  ours %.2f ms, C %.2f ms, ratio %.2f\n", best[3] * 1e3, best[2] * 1e3, best[3] / best[2]);
    return 0;
}
