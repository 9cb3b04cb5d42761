// The colour conversion of a picture in C, by the same tables and loops, and a comparison of the two times.
#include <stdbool.h>
#include <stdint.h>
#include <stdio.h>
#include <stdlib.h>
#include <string.h>
#include <time.h>

enum { WIDTH = 2048, HEIGHT = 1080, TIMES = 8, ENTRIES = 65536 + 71357 + 1 };

bool rattle_pictures(uint32_t times, const uint8_t (*raw)[6 * WIDTH], size_t rows, uint32_t *scratch, size_t room,
                     uint16_t (*x)[WIDTH], size_t x_rows, uint16_t (*y)[WIDTH], size_t y_rows, uint16_t (*z)[WIDTH], size_t z_rows);

static uint32_t light[65536], above[4096];
static uint16_t code[ENTRIES];

static uint64_t fifths(unsigned power, uint64_t base) {
    unsigned __int128 n = base;
    for (unsigned i = 11; i < power; i++) n *= base;
    n <<= 24 * (15 - power);
    uint64_t root = 0;
    for (int bit = 24; bit >= 0; bit--) {
        unsigned __int128 next = root + ((uint64_t)1 << bit);
        if (next * next * next * next * next <= n) root = next;
    }
    return (base * base >> 24) * root >> 24;
}

static void make_tables(unsigned power) {
    for (uint64_t s = 0; s < 65536; s++) light[s] = fifths(power, (s << 24) / 65535);
    for (uint64_t y = 0; y < 4096; y++) {
        uint64_t value = fifths(13, ((y + 1) << 24) / 4095);
        above[y] = ((value ? value : 1) * 52370 + 47999) / 48000;
    }
    for (uint32_t at = 0; at < ENTRIES; at++) {
        uint32_t sum = at < 65536 ? at : (at - 65536) << 8, low = 0, high = 4096;
        while (low < high) {
            uint32_t middle = (low + high) / 2;
            if (above[middle] <= sum) low = middle + 1;
            else high = middle;
        }
        code[at] = low;
    }
}

struct weights { uint32_t red, green, blue; };

static void light_row(const uint32_t *light, const uint8_t *rgb, size_t place, uint32_t *row, size_t n) {
    for (size_t i = 0; i < n; i++) {
        size_t at = 6 * i + place;
        row[i] = light[rgb[at] * 256 + rgb[at + 1]];
    }
}

static void sum_row(struct weights w, const uint32_t *red, const uint32_t *green, const uint32_t *blue, uint32_t *sums, size_t n) {
    for (size_t i = 0; i < n; i++) {
        uint32_t high = w.red * (red[i] >> 12) + w.green * (green[i] >> 12) + w.blue * (blue[i] >> 12);
        uint32_t low = w.red * (red[i] & 0xfff) + w.green * (green[i] & 0xfff) + w.blue * (blue[i] & 0xfff);
        sums[i] = (high + (low >> 12)) >> 4;
    }
}

static void code_row(const uint16_t *code, const uint32_t *above, const uint32_t *sums, uint16_t *row, size_t n) {
    for (size_t i = 0; i < n; i++) {
        uint32_t sum = sums[i], at = sum < 65536 ? sum : 65536 + (sum >> 8);
        uint16_t y = code[at];
        row[i] = y + (above[y] <= sum);
    }
}

static void component_row(struct weights w, uint32_t *scratch, uint16_t *row, size_t n) {
    sum_row(w, scratch, scratch + n, scratch + 2 * n, scratch + 3 * n, n);
    code_row(code, above, scratch + 3 * n, row, n);
}

static void to_xyz_row(const uint8_t *rgb, uint32_t *scratch, uint16_t *x, uint16_t *y, uint16_t *z, size_t n) {
    light_row(light, rgb, 0, scratch, n);
    light_row(light, rgb, 2, scratch + n, n);
    light_row(light, rgb, 4, scratch + 2 * n, n);
    component_row((struct weights){27031, 23434, 11825}, scratch, x, n);
    component_row((struct weights){13938, 46868, 4730}, scratch, y, n);
    component_row((struct weights){1267, 7811, 62279}, scratch, z, n);
}

static uint8_t raw[HEIGHT][6 * WIDTH];
static uint16_t c_out[3][HEIGHT][WIDTH], rattle_out[3][HEIGHT][WIDTH];
static uint32_t scratch[4 * WIDTH];

static double now(void) {
    struct timespec t;
    clock_gettime(CLOCK_PROCESS_CPUTIME_ID, &t);
    return t.tv_sec + t.tv_nsec * 1e-9;
}

__attribute__((noinline)) static double c_pictures(int times) {
    double start = now();
    for (int i = 0; i < times; i++)
        for (size_t row = 0; row < HEIGHT; row++)
            to_xyz_row(raw[row], scratch, c_out[0][row], c_out[1][row], c_out[2][row], WIDTH);
    return now() - start;
}

static double rattle(int times) {
    double start = now();
    if (!rattle_pictures(times, (const void *)raw, HEIGHT, scratch, 4 * WIDTH, rattle_out[0], HEIGHT, rattle_out[1], HEIGHT, rattle_out[2], HEIGHT)) exit(1);
    return now() - start;
}

static uint32_t draw = 1;
static uint32_t random32(void) {
    draw ^= draw << 13;
    draw ^= draw >> 17;
    draw ^= draw << 5;
    return draw;
}

// Samples that drift along a row, as in a picture, or that are drawn anew for each.
static void make_picture(bool noise) {
    for (size_t row = 0; row < HEIGHT; row++)
        for (size_t i = 0; i < 3 * WIDTH; i++) {
            uint32_t sample = noise ? random32() & 0xffff : ((20 * i + 40 * row) + (random32() & 0x3ff)) & 0xffff;
            raw[row][2 * i] = sample >> 8;
            raw[row][2 * i + 1] = sample;
        }
}

int main(int argc, char **argv) {
    int rounds = argc > 1 ? atoi(argv[1]) : 10;
    make_tables(13);
    for (int noise = 0; noise < 2; noise++) {
        make_picture(noise);
        double c_least = 1e9, rattle_least = 1e9, tables_least = 1e9;
        for (int round = 0; round < rounds; round++) {
            double c = c_pictures(TIMES), both = rattle(TIMES), tables = rattle(0);
            if (c < c_least) c_least = c;
            if (both < rattle_least) rattle_least = both;
            if (tables < tables_least) tables_least = tables;
        }
        if (memcmp(c_out, rattle_out, sizeof c_out) != 0) {
            printf("the code values differ\n");
            return 1;
        }
        double rattle_ms = (rattle_least - tables_least) / TIMES * 1e3, c_ms = c_least / TIMES * 1e3;
        printf("  %s: C %.2f ms, Rattle %.2f ms, ratio %.2f; the tables are made in %.1f ms\n", noise ? "noise" : "picture", c_ms, rattle_ms,
               rattle_ms / c_ms, tables_least * 1e3);
    }
    return 0;
}
