// All packets of a picture of 2048 x 1080: their sizes, and their bytes written and read.
#include <stdio.h>
#include <stdlib.h>
#include <time.h>
#include "packet.h"

uint32_t rattle_count(uint16_t width, uint16_t height);
uint64_t rattle_size_one(size_t, size_t, const struct block *, size_t);
uint64_t rattle_size_three(size_t, size_t, const struct block *, size_t, size_t, size_t, const struct block *, size_t,
                           size_t, size_t, const struct block *, size_t);
uint64_t rattle_write_one(uint32_t, uint32_t, const struct block *, size_t, uint32_t, uint32_t);
uint64_t rattle_write_three(uint32_t, uint32_t, const struct block *, size_t, uint32_t, uint32_t, const struct block *,
                            size_t, uint32_t, uint32_t, const struct block *, size_t, uint32_t, uint32_t);
uint32_t rattle_md5(const uint8_t *, size_t);
uint64_t c_size(const struct band *bands, size_t count);

enum { WIDTH = 2048, HEIGHT = 1080, LEVELS = 5, MOST = 2000 };
static struct { struct band bands[3]; size_t count; } packets[MOST];
static struct block blocks[MOST * 48];
static size_t packet_count, block_count, full;

static uint64_t seed = 88172645463325252ull;
static uint32_t below(uint32_t n) {
    seed ^= seed << 13;
    seed ^= seed >> 7;
    seed ^= seed << 17;
    return (seed >> 32) % n;
}

static uint32_t up(uint32_t n, uint32_t by) { return (n + by - 1) / by; }
static uint32_t least(uint32_t a, uint32_t b) { return a < b ? a : b; }

// Finer levels have more zero planes and fewer bytes, and blocks in one place are alike.
static void fill_band(struct band *band, int level, int dense) {
    band->blocks = &blocks[block_count];
    for (uint32_t at = 0; at < band->columns * band->rows; at++) {
        struct block *block = &blocks[block_count++];
        block->included = (int)below(100) < (level > 2 ? 98 : dense);
        block->zero_planes = 1 + (LEVELS - level) / 2 + below(4);
        block->passes = 1 + 3 * below(9) + below(3);
        block->len = 4 + block->passes * (6 + below(32));
    }
}

// The precincts of a resolution have 128 samples a side of each sub-band, blocks 32, and all begin at 0.
static void fill(void) {
    for (int component = 0; component < 3; component++)
        for (int resolution = 0; resolution <= LEVELS; resolution++) {
            int level = resolution ? LEVELS + 1 - resolution : LEVELS, side = resolution ? 256 : 128;
            uint32_t width = up(WIDTH, 1u << (LEVELS - resolution)), height = up(HEIGHT, 1u << (LEVELS - resolution));
            for (uint32_t y = 0; y < up(height, side); y++)
                for (uint32_t x = 0; x < up(width, side); x++) {
                    int dense = 20 + below(80);
                    packets[packet_count].count = resolution ? 3 : 1;
                    for (int kind = 0; kind < (resolution ? 3 : 1); kind++) {
                        // HL has the high columns, LH the high rows, and HH both.
                        uint32_t columns = !resolution ? width : kind == 1 ? up(width, 2) : width / 2;
                        uint32_t rows = !resolution ? height : kind == 0 ? up(height, 2) : height / 2;
                        struct band *band = &packets[packet_count].bands[kind];
                        band->columns = columns > 128 * x ? up(least(columns - 128 * x, 128), 32) : 0;
                        band->rows = rows > 128 * y ? up(least(rows - 128 * y, 128), 32) : 0;
                        fill_band(band, level, dense);
                        full += kind == 2 && band->columns == 4 && band->rows == 4;
                    }
                    packet_count++;
                }
        }
}

static uint64_t rattle_size(const struct band *b, size_t count) {
    if (count == 1) return rattle_size_one(b->columns, b->rows, b->blocks, b->columns * b->rows);
    return rattle_size_three(b->columns, b->rows, b->blocks, b->columns * b->rows,
                             b[1].columns, b[1].rows, b[1].blocks, b[1].columns * b[1].rows,
                             b[2].columns, b[2].rows, b[2].blocks, b[2].columns * b[2].rows);
}

static uint64_t rattle_write(const struct band *b, size_t count, uint32_t writes, uint32_t reads) {
    if (count == 1) return rattle_write_one(b->columns, b->rows, b->blocks, b->columns * b->rows, writes, reads);
    return rattle_write_three(b->columns, b->rows, b->blocks, b->columns * b->rows,
                              b[1].columns, b[1].rows, b[1].blocks, b[1].columns * b[1].rows,
                              b[2].columns, b[2].rows, b[2].blocks, b[2].columns * b[2].rows, writes, reads);
}

static double now(void) {
    struct timespec t;
    clock_gettime(CLOCK_PROCESS_CPUTIME_ID, &t);
    return t.tv_sec + t.tv_nsec * 1e-9;
}

static uint64_t all(int how, uint32_t writes, uint32_t reads) {
    uint64_t sum = 0;
    for (size_t i = 0; i < packet_count; i++)
        sum += how == 0 ? rattle_size(packets[i].bands, packets[i].count)
             : how == 1 ? c_size(packets[i].bands, packets[i].count)
                        : rattle_write(packets[i].bands, packets[i].count, writes, reads);
    return sum;
}

int main(int argc, char **argv) {
    int rounds = argc > 1 ? atoi(argv[1]) : 200;
    fill();
    if (packet_count != 3 * rattle_count(WIDTH, HEIGHT)) return printf("the packets' number is wrong\n"), 1;
    uint64_t sums[4] = {0};
    double best[2] = {1e9, 1e9};
    for (int round = 0; round < rounds; round++)
        for (int how = 0; how < 2; how++) {
            double start = now();
            sums[how] = all(how, 0, 0);
            double time = now() - start;
            if (time < best[how]) best[how] = time;
        }
    double start = now();
    sums[2] = all(2, 0, 0);
    double once = now() - start;
    start = now();
    all(2, 10, 0);
    double written = (now() - start - once) / 10;
    start = now();
    sums[3] = all(2, 0, 10);
    double read = (now() - start - once) / 10;
    for (int how = 1; how < 4; how++)
        if (sums[0] != sums[how]) return printf("the sums differ\n"), 1;
    static uint8_t bytes[1 << 24];
    start = now();
    for (int round = 0; round < 10; round++) bytes[round] = rattle_md5(bytes, sums[0]);
    double md5 = (now() - start) / 10;
    printf("%zu packets (%zu of 4 x 4 blocks a sub-band), %zu blocks, %llu bytes\n", packet_count, full, block_count,
           (unsigned long long)sums[0]);
    const char *names[2] = {"sized", "sized in C"};
    for (int how = 0; how < 2; how++)
        printf("%-10s %8.4f ms, %6.0f ns a packet\n", names[how], best[how] * 1e3, best[how] / packet_count * 1e9);
    printf("%-10s %8.4f ms, %6.0f ns a packet\n", "written", written * 1e3, written / packet_count * 1e9);
    printf("%-10s %8.4f ms, %6.0f ns a packet\n", "read", read * 1e3, read / packet_count * 1e9);
    printf("%-10s %8.4f ms\n", "MD5", md5 * 1e3);
    printf("sized / sized in C: %.2f\n", best[0] / best[1]);
    return 0;
}
