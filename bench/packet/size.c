// Sizes of packets by direct forms of the tag trees, in C.
#include <stddef.h>
#include <stdint.h>
#include "packet.h"

// Bits that aren't counted yet stand in the lowest `pending` bits.
struct counter { uint64_t bits, bytes; uint32_t pending, room; };

static void put(struct counter *c, uint32_t n, uint32_t value) {
    c->bits = c->bits << n | value;
    c->pending += n;
    if (c->pending < 32) return;
    while (c->pending >= c->room) {
        c->pending -= c->room;
        c->bytes++;
        c->room = c->room == 8 && (c->bits >> c->pending & 0xff) == 0xff ? 7 : 8;
    }
}

static void put_run(struct counter *c, uint32_t zeros) {
    for (; zeros > 31; zeros -= 32) put(c, 32, 0);
    put(c, zeros + 1, 1);
}

static uint32_t least(uint32_t a, uint32_t b) { return a < b ? a : b; }

static void put_band(struct counter *c, const struct band *band) {
    uint32_t columns = band->columns, rows = band->rows;
    uint32_t parents[4] = {256, 256, 256, 256}, top = 256;
    int wide = columns > 1 || rows > 1, tall = columns > 2 || rows > 2;
    for (uint32_t y = 0, at = 0; y < rows; y++)
        for (uint32_t x = 0; x < columns; x++, at++) {
            uint32_t value = band->blocks[at].included ? band->blocks[at].zero_planes : 256;
            uint32_t up = (y >> 1) * 2 + (x >> 1);
            parents[up] = least(parents[up], value);
            top = least(top, value);
        }
    int asked_top = !tall, known_top = !tall;
    uint32_t asked = 0, known = 0;
    for (uint32_t y = 0, at = 0; y < rows; y++)
        for (uint32_t x = 0; x < columns; x++, at++) {
            const struct block *block = &band->blocks[at];
            uint32_t up = (y >> 1) * 2 + (x >> 1), one = 1u << up;
            // A node is told of where its parent has a block that is included, and once.
            if (!asked_top) asked_top = 1, put(c, 1, top < 256);
            if (wide && !(asked & one)) {
                asked |= one;
                if (!tall || top < 256) put(c, 1, parents[up] < 256);
            }
            if (!wide || parents[up] < 256) put(c, 1, block->included);
            if (!block->included) continue;
            if (!known_top) known_top = 1, put_run(c, top);
            uint32_t low = tall ? top : 0;
            if (wide) {
                if (!(known & one)) known |= one, put_run(c, parents[up] - low);
                low = parents[up];
            }
            put_run(c, block->zero_planes - low);
            uint32_t passes = block->passes;
            if (passes == 1) put(c, 1, 0);
            else if (passes == 2) put(c, 2, 2);
            else if (passes <= 5) put(c, 4, 12 + passes - 3);
            else if (passes <= 36) put(c, 9, 480 + passes - 6);
            else put(c, 16, 65408 + passes - 37);
            uint32_t log = 31 - __builtin_clz(passes), length = block->len ? 32 - __builtin_clz(block->len) : 0;
            uint32_t growth = length > 3 + log ? length - 3 - log : 0;
            put(c, growth + 1, ((1u << growth) - 1) << 1);
            put(c, 3 + growth + log, block->len);
        }
}

uint64_t c_size(const struct band *bands, size_t count) {
    struct counter c = {0, 0, 0, 8};
    uint64_t body = 0;
    int full = 0;
    for (size_t i = 0; i < count; i++)
        for (uint32_t at = 0; at < bands[i].columns * bands[i].rows; at++)
            if (bands[i].blocks[at].included) full = 1, body += bands[i].blocks[at].len;
    if (!full) return 1;
    put(&c, 1, 1);
    for (size_t i = 0; i < count; i++) put_band(&c, &bands[i]);
    while (c.pending >= c.room) {
        c.pending -= c.room;
        c.bytes++;
        c.room = c.room == 8 && (c.bits >> c.pending & 0xff) == 0xff ? 7 : 8;
    }
    return body + c.bytes + (c.pending || c.room == 7);
}
