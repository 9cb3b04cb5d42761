// A picture from its raw bytes to its quantised sub-bands in C, in the same arrangement as ours and in two others, and a
// comparison of the times.
#include <stdbool.h>
#include <stdint.h>
#include <stdio.h>
#include <stdlib.h>
#include <string.h>
#include <time.h>

enum { WIDTH = 2048, HEIGHT = 1080, SAMPLES = WIDTH * HEIGHT, TIMES = 3, ENTRIES = 65536 + 71357 + 1 };
enum { LL, HL, LH, HH };

// ---- what is compared

bool rattle_whole(uint32_t times, const uint8_t *raw, size_t bytes, uint16_t *words, size_t n);
bool rattle_planes(uint32_t times, const uint8_t *raw, size_t bytes, int32_t *luma, size_t lumas, int32_t *blue, size_t blues,
                   int32_t *red, size_t reds);

// ---- colour

static uint32_t light[65536], above[4096];
static uint16_t code[ENTRIES];

static uint64_t fifths(unsigned power, uint64_t base) {
    unsigned __int128 n = base;
    for (unsigned i = 11; i < power; i++) n *= base;
    n <<= 24 * (15 - power);
    uint64_t root = 0;
    for (int bit = 24; bit >= 0; bit--) {
        unsigned __int128 next = root + ((uint64_t)1 << bit);
        if (next * next * next * next * next <= n) root = next;
    }
    return (base * base >> 24) * root >> 24;
}

static void make_tables(unsigned power) {
    for (uint64_t s = 0; s < 65536; s++) light[s] = fifths(power, (s << 24) / 65535);
    for (uint64_t y = 0; y < 4096; y++) {
        uint64_t value = fifths(13, ((y + 1) << 24) / 4095);
        above[y] = ((value ? value : 1) * 52370 + 47999) / 48000;
    }
    for (uint32_t at = 0; at < ENTRIES; at++) {
        uint32_t sum = at < 65536 ? at : (at - 65536) << 8, low = 0, high = 4096;
        while (low < high) {
            uint32_t middle = (low + high) / 2;
            if (above[middle] <= sum) low = middle + 1;
            else high = middle;
        }
        code[at] = low;
    }
}

struct weights { uint32_t red, green, blue; };

static void light_row(const uint32_t *light, const uint8_t *rgb, size_t place, uint32_t *row, size_t n) {
    for (size_t i = 0; i < n; i++) {
        size_t at = 6 * i + place;
        row[i] = light[rgb[at] * 256 + rgb[at + 1]];
    }
}

static void sum_row(struct weights w, const uint32_t *red, const uint32_t *green, const uint32_t *blue, uint32_t *sums, size_t n) {
    for (size_t i = 0; i < n; i++) {
        uint32_t high = w.red * (red[i] >> 12) + w.green * (green[i] >> 12) + w.blue * (blue[i] >> 12);
        uint32_t low = w.red * (red[i] & 0xfff) + w.green * (green[i] & 0xfff) + w.blue * (blue[i] & 0xfff);
        sums[i] = (high + (low >> 12)) >> 4;
    }
}

static void code_row(const uint16_t *code, const uint32_t *above, const uint32_t *sums, uint16_t *row, size_t n) {
    for (size_t i = 0; i < n; i++) {
        uint32_t sum = sums[i], at = sum < 65536 ? sum : 65536 + (sum >> 8);
        uint16_t y = code[at];
        row[i] = y + (above[y] <= sum);
    }
}

static void component_row(struct weights w, uint32_t *scratch, uint16_t *row, size_t n) {
    sum_row(w, scratch, scratch + n, scratch + 2 * n, scratch + 3 * n, n);
    code_row(code, above, scratch + 3 * n, row, n);
}

static void to_xyz_row(const uint8_t *rgb, uint32_t *scratch, uint16_t *x, uint16_t *y, uint16_t *z, size_t n) {
    light_row(light, rgb, 0, scratch, n);
    light_row(light, rgb, 2, scratch + n, n);
    light_row(light, rgb, 4, scratch + 2 * n, n);
    component_row((struct weights){27031, 23434, 11825}, scratch, x, n);
    component_row((struct weights){13938, 46868, 4730}, scratch, y, n);
    component_row((struct weights){1267, 7811, 62279}, scratch, z, n);
}

// ---- components

#define COMPONENT(name, SUM) \
    __attribute__((noinline)) static void name(int32_t *row, const uint16_t *xs, const uint16_t *ys, const uint16_t *zs, size_t n) { \
        for (size_t i = 0; i < n; i++) { \
            int32_t x = xs[i] - 2048, y = ys[i] - 2048, z = zs[i] - 2048; \
            row[i] = (SUM) >> 3; \
        } \
    }
COMPONENT(luma_row, x * 19595 + y * 38470 + z * 7471)
COMPONENT(chroma_blue_row, x * -11059 - y * 21709 + z * 32768)
COMPONENT(chroma_red_row, x * 32768 - y * 27439 - z * 5329)

static uint32_t scratch[4 * WIDTH];
static uint16_t xs[WIDTH], ys[WIDTH], zs[WIDTH];

static void fill_row(const uint8_t *rgb, int32_t *luma, int32_t *blue, int32_t *red, size_t n) {
    to_xyz_row(rgb, scratch, xs, ys, zs, n);
    luma_row(luma, xs, ys, zs, n);
    chroma_blue_row(blue, xs, ys, zs, n);
    chroma_red_row(red, xs, ys, zs, n);
}

// ---- the wavelet transform's steps

#define PART(k, s) ((int32_t)((int64_t)(k) * (s) >> 16))

// A negative factor is taken from the sum, as ours is.
#define FIRST(own, s) ((own) + PART(27123, s) - (s) - (s))
#define SECOND(own, s) ((own) + PART(62064, s) - (s))
#define THIRD(own, s) ((own) + PART(57862, s))
#define FOURTH(own, s) ((own) + PART(29066, s))

#define LIFT(name, STEP) \
    __attribute__((noinline)) static void name(int32_t *row, const int32_t *above, const int32_t *below, size_t n) { \
        for (size_t x = 0; x < n; x++) { \
            int32_t s = above[x] + below[x]; \
            row[x] = STEP(row[x], s); \
        } \
    }
LIFT(first, FIRST)
LIFT(second, SECOND)
LIFT(third, THIRD)
LIFT(fourth, FOURTH)

// Row y lies at y & mask: all rows, or a ring of eight.
struct rows { int32_t *samples; size_t columns, height, mask; };

static int32_t *row_at(struct rows r, size_t y) { return r.samples + (y & r.mask) * r.columns; }

static void lift(void (*step)(int32_t *, const int32_t *, const int32_t *, size_t), struct rows r, size_t y) {
    if (y >= r.height) return;
    step(row_at(r, y), row_at(r, y == 0 ? 1 : y - 1), row_at(r, y + 1 == r.height ? r.height - 2 : y + 1), r.columns);
}

static void start(struct rows r) {
    lift(first, r, 1);
    lift(second, r, 0);
}

static void round_of(struct rows r, size_t j) {
    lift(first, r, 2 * j + 3);
    lift(second, r, 2 * j + 2);
    lift(third, r, 2 * j + 1);
    lift(fourth, r, 2 * j);
}

#define TAKE(name, K) \
    __attribute__((noinline)) static void name(const int32_t *row, int32_t *even, size_t evens, int32_t *odd, size_t odds) { \
        for (size_t i = 0; i < odds; i++) { \
            even[i] = PART(K, row[2 * i]); \
            odd[i] = PART(K, row[2 * i + 1]); \
        } \
        if (odds < evens) even[odds] = PART(K, row[2 * odds]); \
    }
TAKE(take_low, 53274)
TAKE(take_high, 80621)

#define ODD(name, STEP) \
    __attribute__((noinline)) static void name(int32_t *odd, size_t odds, const int32_t *even, size_t evens) { \
        size_t last = evens - 1; \
        for (size_t i = 0; i < last; i++) { \
            int32_t s = even[i] + even[i + 1]; \
            odd[i] = STEP(odd[i], s); \
        } \
        if (last < odds) { \
            int32_t s = even[last] + even[last]; \
            odd[last] = STEP(odd[last], s); \
        } \
    }
ODD(first_across, FIRST)
ODD(third_across, THIRD)

#define EVEN(name, STEP) \
    __attribute__((noinline)) static void name(int32_t *even, size_t evens, const int32_t *odd, size_t odds) { \
        int32_t s = odd[0] + odd[0]; \
        even[0] = STEP(even[0], s); \
        for (size_t i = 1; i < odds; i++) { \
            s = odd[i - 1] + odd[i]; \
            even[i] = STEP(even[i], s); \
        } \
        if (odds < evens) { \
            s = odd[odds - 1] + odd[odds - 1]; \
            even[odds] = STEP(even[odds], s); \
        } \
    }
EVEN(second_across, SECOND)
EVEN(fourth_across, FOURTH)

#define CLAMP(name, K) \
    __attribute__((noinline)) static void name(int32_t *samples, size_t n) { \
        for (size_t i = 0; i < n; i++) { \
            int32_t v = PART(K, samples[i]); \
            v = v < 0x4000000 ? v : 0x4000000; \
            samples[i] = v > -0x4000000 ? v : -0x4000000; \
        } \
    }
CLAMP(clamp_low, 53274)
CLAMP(clamp_high, 80621)

static void across(int32_t *low, size_t lows, int32_t *high, size_t highs) {
    first_across(high, highs, low, lows);
    second_across(low, lows, high, highs);
    third_across(high, highs, low, lows);
    fourth_across(low, lows, high, highs);
    clamp_low(low, lows);
    clamp_high(high, highs);
}

// ---- the quantiser

static uint32_t magnitude(int32_t v) { return v < 0 ? -(uint32_t)v : (uint32_t)v; }
static uint16_t word(uint32_t m, int32_t v) { return (uint16_t)((v < 0 ? 0x8000 : 0) + m); }

__attribute__((noinline)) static void lowest(const int32_t *values, uint16_t *out, size_t n) {
    for (size_t i = 0; i < n; i++) {
        uint32_t m = magnitude(values[i]) >> 11;
        out[i] = word(m < 0x3fff ? m : 0x3fff, values[i]);
    }
}
__attribute__((noinline)) static void fifths_of(uint32_t shift, const int32_t *values, uint16_t *out, size_t n) {
    for (size_t i = 0; i < n; i++) out[i] = word((magnitude(values[i]) >> shift) * 52429 >> 18, values[i]);
}
__attribute__((noinline)) static void ninths(uint32_t shift, const int32_t *values, uint16_t *out, size_t n) {
    for (size_t i = 0; i < n; i++) out[i] = word((magnitude(values[i]) >> shift) * 58255 >> 19, values[i]);
}
__attribute__((noinline)) static void wide_ninths(uint32_t shift, const int32_t *values, uint16_t *out, size_t n) {
    for (size_t i = 0; i < n; i++)
        out[i] = word((uint32_t)((uint64_t)(magnitude(values[i]) >> shift) * 954437177 >> 33), values[i]);
}
static void quantise(int level, int kind, const int32_t *values, uint16_t *out, size_t n) {
    static const uint8_t more_at[] = {3, 3, 2, 2, 1, 0};
    uint32_t more = more_at[level];
    if (kind == LL) lowest(values, out, n);
    else if (kind == HH) fifths_of(10 + more, values, out, n);
    else if (more < 2) wide_ninths(8 + more, values, out, n);
    else ninths(8 + more, values, out, n);
}

// ---- levels: where the parts of one lie, and its rows once they are done

struct level { int number; size_t columns, lows, highs; int32_t *low; uint16_t *hl, *lh, *hh; };

static int32_t line[WIDTH];

static struct level level_of(int number, size_t columns, size_t rows, int32_t *low, uint16_t *words) {
    size_t lows = columns - columns / 2, highs = columns / 2, low_rows = rows - rows / 2;
    struct level l = {number, columns, lows, highs, low, words + lows * low_rows, 0, 0};
    l.lh = l.hl + highs * low_rows;
    l.hh = l.lh + lows * (rows / 2);
    return l;
}

static void finish_even(struct level l, const int32_t *row, size_t k) {
    int32_t *low = l.low + k * l.lows;
    take_low(row, low, l.lows, line, l.highs);
    across(low, l.lows, line, l.highs);
    quantise(l.number, HL, line, l.hl + k * l.highs, l.highs);
}

static void finish_odd(struct level l, const int32_t *row, size_t k) {
    take_high(row, line, l.lows, line + l.lows, l.highs);
    across(line, l.lows, line + l.lows, l.highs);
    quantise(l.number, LH, line, l.lh + k * l.lows, l.lows);
    quantise(l.number, HH, line + l.lows, l.hh + k * l.highs, l.highs);
}

static void finish_round(struct level l, struct rows r, size_t j) {
    finish_even(l, row_at(r, 2 * j), j);
    if (2 * j + 1 < r.height) finish_odd(l, row_at(r, 2 * j + 1), j);
}

static void decompose(struct level l, struct rows r) {
    start(r);
    for (size_t j = 0; j < r.height - r.height / 2; j++) {
        round_of(r, j);
        finish_round(l, r, j);
    }
}

// The levels from this one on, of a plane; words are those of a component.
static void levels_from(int number, int32_t *plane, size_t columns, size_t rows, int32_t *low, uint16_t *words) {
    for (; number <= 5; number++) {
        decompose(level_of(number, columns, rows, low, words), (struct rows){plane, columns, rows, SIZE_MAX});
        columns -= columns / 2;
        rows -= rows / 2;
        plane = low;
        low += columns * rows;
    }
    quantise(5, LL, plane, words, columns * rows);
}

// ---- a whole picture: all rows kept

static uint8_t raw[6 * SAMPLES];
static int32_t planes[3][SAMPLES], rattle_planes_out[3][SAMPLES], lows[3][SAMPLES / 2];
static uint16_t c_words[3 * SAMPLES], pair_words[3 * SAMPLES], ring_words[3 * SAMPLES], rattle_words[3 * SAMPLES];

__attribute__((noinline)) static void c_planes(void) {
    for (size_t y = 0; y < HEIGHT; y++)
        fill_row(raw + 6 * WIDTH * y, planes[0] + WIDTH * y, planes[1] + WIDTH * y, planes[2] + WIDTH * y, WIDTH);
}

__attribute__((noinline)) static void c_wave(void) {
    for (int i = 0; i < 3; i++) levels_from(1, planes[i], WIDTH, HEIGHT, lows[0], c_words + i * SAMPLES);
}

// ---- the same, each row of level 1 taken as soon as it is done: from whole planes, or from a ring of eight rows

static int32_t rings[3][8 * WIDTH];

static void c_rows(struct rows r[3], uint16_t *words) {
    struct level l[3];
    size_t made = 0;
    for (int i = 0; i < 3; i++) l[i] = level_of(1, WIDTH, HEIGHT, lows[i], words + i * SAMPLES);
    for (size_t j = 0; j < HEIGHT - HEIGHT / 2; j++) {
        for (; made < HEIGHT && made < 2 * j + 5; made++)
            fill_row(raw + 6 * WIDTH * made, row_at(r[0], made), row_at(r[1], made), row_at(r[2], made), WIDTH);
        for (int i = 0; i < 3; i++) {
            if (j == 0) start(r[i]);
            round_of(r[i], j);
            finish_round(l[i], r[i], j);
        }
    }
    size_t columns = WIDTH - WIDTH / 2, rows = HEIGHT - HEIGHT / 2;
    for (int i = 0; i < 3; i++) levels_from(2, lows[i], columns, rows, lows[i] + columns * rows, words + i * SAMPLES);
}

__attribute__((noinline)) static void c_pairs(void) {
    struct rows r[3];
    for (int i = 0; i < 3; i++) r[i] = (struct rows){planes[i], WIDTH, HEIGHT, SIZE_MAX};
    c_rows(r, pair_words);
}

__attribute__((noinline)) static void c_ring(void) {
    struct rows r[3];
    for (int i = 0; i < 3; i++) r[i] = (struct rows){rings[i], WIDTH, HEIGHT, 7};
    c_rows(r, ring_words);
}

// ---- the comparison

static double now(void) {
    struct timespec t;
    clock_gettime(CLOCK_PROCESS_CPUTIME_ID, &t);
    return t.tv_sec + t.tv_nsec * 1e-9;
}

static double best(double so_far, double start, double times) {
    double time = (now() - start) / times * 1e3;
    return time < so_far ? time : so_far;
}

static uint32_t draw = 1;
static uint32_t random32(void) {
    draw ^= draw << 13;
    draw ^= draw >> 17;
    draw ^= draw << 5;
    return draw;
}

// Samples that drift along a row, as in a picture, or that are drawn anew for each.
static void make_picture(bool noise) {
    for (size_t row = 0; row < HEIGHT; row++)
        for (size_t i = 0; i < 3 * WIDTH; i++) {
            uint32_t sample = noise ? random32() & 0xffff : ((20 * i + 40 * row) + (random32() & 0x3ff)) & 0xffff;
            raw[6 * WIDTH * row + 2 * i] = sample >> 8;
            raw[6 * WIDTH * row + 2 * i + 1] = sample;
        }
}

static double rattle(uint32_t times) {
    double start = now();
    if (!rattle_whole(times, raw, sizeof raw, rattle_words, 3 * SAMPLES)) exit(1);
    return now() - start;
}

static double rattle_plane_times(uint32_t times) {
    double start = now();
    if (!rattle_planes(times, raw, sizeof raw, rattle_planes_out[0], SAMPLES, rattle_planes_out[1], SAMPLES, rattle_planes_out[2], SAMPLES))
        exit(1);
    return now() - start;
}

static double least(double a, double b) { return a < b ? a : b; }

static void compare(const char *what, int rounds) {
    double c_planes_ms = 1e9, c_wave_ms = 1e9, c_ms = 1e9, pairs_ms = 1e9, ring_ms = 1e9;
    double none = 1e9, some = 1e9, no_planes = 1e9, some_planes = 1e9;
    for (int round = 0; round < rounds; round++) {
        double begin = now();
        c_planes();
        c_planes_ms = best(c_planes_ms, begin, 1);
        double middle = now();
        c_wave();
        c_wave_ms = best(c_wave_ms, middle, 1);
        c_ms = best(c_ms, begin, 1);
        begin = now();
        c_pairs();
        pairs_ms = best(pairs_ms, begin, 1);
        begin = now();
        c_ring();
        ring_ms = best(ring_ms, begin, 1);
        none = least(none, rattle(0));
        some = least(some, rattle(TIMES));
        no_planes = least(no_planes, rattle_plane_times(0));
        some_planes = least(some_planes, rattle_plane_times(TIMES));
    }
    if (memcmp(c_words, pair_words, sizeof c_words) != 0 || memcmp(c_words, ring_words, sizeof c_words) != 0) {
        puts("the words of the three arrangements differ");
        exit(1);
    }
    c_planes();
    if (memcmp(planes, rattle_planes_out, sizeof planes) != 0) {
        puts("the planes differ");
        exit(1);
    }
    if (memcmp(c_words, rattle_words, sizeof c_words) != 0) {
        puts("the words differ");
        exit(1);
    }
    double whole = (some - none) / TIMES * 1e3, made = (some_planes - no_planes) / TIMES * 1e3;
    printf("  %s, planes: ours %.2f ms, C %.2f ms, ratio %.2f\n", what, made, c_planes_ms, made / c_planes_ms);
    printf("  %s, wavelet with quantiser: ours %.2f ms, C %.2f ms, ratio %.2f\n", what, whole - made, c_wave_ms,
           (whole - made) / c_wave_ms);
    printf("  %s, the whole: ours %.2f ms, C %.2f ms, ratio %.2f\n", what, whole, c_ms, whole / c_ms);
    printf("  %s, C with each row taken as soon as it is done: whole planes %.2f ms, a ring of eight rows %.2f ms\n", what,
           pairs_ms, ring_ms);
}

int main(int argc, char **argv) {
    int rounds = argc > 1 ? atoi(argv[1]) : 10;
    make_tables(13);
    make_picture(false);
    compare("picture", rounds);
    make_picture(true);
    compare("noise", rounds);
    return 0;
}
