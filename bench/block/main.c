// Times of code-blocks: the same design in C, the crate, and a walk over every sample with decisions coded one at a time.
#include "blocks.h"
#include <math.h>
#include <stdio.h>
#include <stdlib.h>
#include <string.h>
#include <time.h>

void rattle_blocks(const int32_t *values, size_t n, const uint8_t *codes, size_t blocks, uint32_t half, uint8_t *out, size_t room, uint32_t *lengths, size_t count);
void rattle_walk(const int32_t *values, size_t n, const uint8_t *codes, size_t blocks, uint32_t half, uint8_t *out, size_t room, uint32_t *lengths, size_t count);
uint32_t rattle_lists(const uint8_t *lists, size_t n, const uint32_t *counts, size_t blocks);

// Table C.2: Qe, the next row after each symbol, and whether the less probable symbol makes the two change places.
static const struct { uint16_t qe; uint8_t nmps, nlps, change; } table[47] = {
    {0x5601, 1, 1, 1}, {0x3401, 2, 6, 0}, {0x1801, 3, 9, 0}, {0x0ac1, 4, 12, 0}, {0x0521, 5, 29, 0}, {0x0221, 38, 33, 0},
    {0x5601, 7, 6, 1}, {0x5401, 8, 14, 0}, {0x4801, 9, 14, 0}, {0x3801, 10, 14, 0}, {0x3001, 11, 17, 0}, {0x2401, 12, 18, 0},
    {0x1c01, 13, 20, 0}, {0x1601, 29, 21, 0}, {0x5601, 15, 14, 1}, {0x5401, 16, 14, 0}, {0x5101, 17, 15, 0}, {0x4801, 18, 16, 0},
    {0x3801, 19, 17, 0}, {0x3401, 20, 18, 0}, {0x3001, 21, 19, 0}, {0x2801, 22, 19, 0}, {0x2401, 23, 20, 0}, {0x2201, 24, 21, 0},
    {0x1c01, 25, 22, 0}, {0x1801, 26, 23, 0}, {0x1601, 27, 24, 0}, {0x1401, 28, 25, 0}, {0x1201, 29, 26, 0}, {0x1101, 30, 27, 0},
    {0x0ac1, 31, 28, 0}, {0x09c1, 32, 29, 0}, {0x08a1, 33, 30, 0}, {0x0521, 34, 31, 0}, {0x0441, 35, 32, 0}, {0x02a1, 36, 33, 0},
    {0x0221, 37, 34, 0}, {0x0141, 38, 35, 0}, {0x0111, 39, 36, 0}, {0x0085, 40, 37, 0}, {0x0049, 41, 38, 0}, {0x0025, 42, 39, 0},
    {0x0015, 43, 40, 0}, {0x0009, 44, 41, 0}, {0x0005, 45, 42, 0}, {0x0001, 45, 43, 0}, {0x5601, 46, 46, 0},
};

static void make_steps(void) {
    uint32_t rows[256] = {0};
    for (unsigned i = 0; i < 188; i++) {
        unsigned k = i >> 2, symbol = i >> 1 & 1, bit = i & 1, likely = symbol == bit;
        unsigned next = likely ? 2 * table[k].nmps + symbol : 2 * table[k].nlps + (symbol ^ table[k].change);
        rows[i] = table[k].qe | next << 16 | likely << 31;
    }
    make_tables(rows);
}

enum { BLOCKS = 220, FRAME = 6600 };
static int32_t values[BLOCKS][1024];
static uint8_t codes[BLOCKS], lists[BLOCKS][LIST], out[3][BLOCKS][ROOM], spare[ROOM];
static uint32_t counts[BLOCKS], lengths[3][BLOCKS];
static struct block blocks[BLOCKS];
static struct scratch scratch;

static uint64_t seed;
static uint32_t random32(void) {
    seed ^= seed << 13;
    seed ^= seed >> 7;
    seed ^= seed << 17;
    return seed >> 32;
}

static double random_one(void) {
    return (random32() + 1.0) / 4294967296.0;
}

// Coefficients whose scale differs by block and by part of a block, as at edges and textures; of the same scale
// everywhere; or mostly zero.
enum content { NATURAL, NOISE, SMOOTH };
static const char *const names[3] = {"natural", "noise", "smooth"};

static double part_scale(enum content content) {
    double u = random_one();
    if (content == NOISE) return 1;
    return content == NATURAL ? exp2(5 * u - 3) : exp2(9 * u - 8);
}

static void make_blocks(enum content content) {
    static const unsigned sizes[4][2] = {{32, 32}, {27, 32}, {32, 5}, {1, 32}};
    seed = 88172645463325252ull;
    for (unsigned i = 0; i < BLOCKS; i++) {
        unsigned shape = i % 20 < 17 ? 0 : i % 20 - 16, kind = i % 40 ? 1 + i % 3 : 0;
        double scale = content == NOISE ? 260 : exp2(6 * random_one() - 0.8), parts[64];
        for (unsigned k = 0; k < 64; k++) parts[k] = part_scale(content);
        codes[i] = kind << 4 | shape;
        blocks[i] = (struct block){values[i], kind, sizes[shape][0], sizes[shape][1]};
        for (unsigned n = 0; n < blocks[i].width * blocks[i].height; n++) {
            unsigned x = n % blocks[i].width, y = n / blocks[i].width;
            double magnitude = -log(random_one()) * scale * parts[(y / 4) * 8 + x / 4];
            int32_t whole = magnitude > 4000 ? 4000 : (int32_t)magnitude;
            values[i][n] = random32() & 1 ? -whole : whole;
        }
    }
}

static double now(void) {
    struct timespec t;
    clock_gettime(CLOCK_PROCESS_CPUTIME_ID, &t);
    return t.tv_sec + t.tv_nsec / 1e9;
}

enum { C_BLOCKS, C_FORM, C_LISTS, BLOCKS_R, LISTS_R, WALK_R, TIMES };
static double best[TIMES];

static void took(int which, double since) {
    double time = now() - since;
    if (time < best[which]) best[which] = time;
}

static int differ(void) {
    for (unsigned i = 0; i < BLOCKS; i++) {
        if (lengths[0][i] != lengths[1][i] || lengths[0][i] != lengths[2][i])
            return printf("lengths differ at block %u: %u %u %u\n", i, lengths[0][i], lengths[1][i], lengths[2][i]), 1;
        if (memcmp(out[0][i] + 1, out[1][i], lengths[0][i]) || memcmp(out[0][i] + 1, out[2][i], lengths[0][i]))
            return printf("bytes differ at block %u\n", i), 1;
    }
    return 0;
}

// All of them by turns.
static int round_of(unsigned half) {
    uint32_t sum = 0, other;
    double t = now();
    for (unsigned i = 0; i < BLOCKS; i++) lengths[0][i] = c_block(&scratch, &blocks[i], half, out[0][i]);
    took(C_BLOCKS, t);
    t = now();
    rattle_blocks(values[0], BLOCKS * 1024, codes, BLOCKS, half, out[1][0], sizeof out[1], lengths[1], BLOCKS);
    took(BLOCKS_R, t);
    t = now();
    rattle_walk(values[0], BLOCKS * 1024, codes, BLOCKS, half, out[2][0], sizeof out[2], lengths[2], BLOCKS);
    took(WALK_R, t);
    t = now();
    for (unsigned i = 0; i < BLOCKS; i++) counts[i] = c_form(&scratch, &blocks[i], half, lists[i]);
    took(C_FORM, t);
    t = now();
    for (unsigned i = 0; i < BLOCKS; i++) sum += c_list(lists[i], counts[i], spare);
    took(C_LISTS, t);
    t = now();
    other = rattle_lists(lists[0], sizeof lists, counts, BLOCKS);
    took(LISTS_R, t);
    if (sum != other) return printf("lists differ: %u %u\n", sum, other), 1;
    return differ();
}

static int compare(enum content content, unsigned half, int rounds) {
    make_blocks(content);
    for (int i = 0; i < TIMES; i++) best[i] = 1e9;
    for (int round = 0; round < rounds; round++)
        if (round_of(half)) return 1;
    double n = 0, planes = 0, frame = 1e3 * FRAME / BLOCKS;
    for (unsigned i = 0; i < BLOCKS; i++) {
        n += counts[i] / 1e9;
        c_form(&scratch, &blocks[i], half, lists[i]);
        planes += scratch.plane_count;
    }
    printf("%s, %s: %.0f decisions a block of %.1f planes; ns a decision\n", names[content], half ? "upper half" : "all planes", n * 1e9 / BLOCKS, planes / BLOCKS);
    printf("  C:       forming %5.2f, coding %5.2f, together %5.2f\n", best[C_FORM] / n, best[C_LISTS] / n, best[C_BLOCKS] / n);
    printf("  Rattle:  forming %5.2f, coding %5.2f, together %5.2f, ratio to C %.2f\n", (best[BLOCKS_R] - best[LISTS_R]) / n, best[LISTS_R] / n, best[BLOCKS_R] / n, best[BLOCKS_R] / best[C_BLOCKS]);
    printf("  walk, decisions one at a time: %5.2f; Rattle takes %.2f of it\n", best[WALK_R] / n, best[BLOCKS_R] / best[WALK_R]);
    printf("  ms a frame of %d blocks: C %.0f, Rattle %.0f, walk %.0f\n", FRAME, best[C_BLOCKS] * frame, best[BLOCKS_R] * frame, best[WALK_R] * frame);
    return 0;
}

int main(int argc, char **argv) {
    int rounds = argc > 1 ? atoi(argv[1]) : 10;
    make_steps();
    for (int content = NATURAL; content <= SMOOTH; content++)
        for (unsigned half = 0; half < 2; half++)
            if (compare(content, half, rounds)) return 1;
    return 0;
}
