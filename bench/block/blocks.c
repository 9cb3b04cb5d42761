// A code-block's decisions from bitmaps in scan order, and the arithmetic coder by masks over the list of each bit-plane.
// Bit i of word w of a map is the sample at position 64 w + i: four rows make a stripe, and a stripe goes column by column.
#include "blocks.h"
#include <string.h>

static uint8_t zero[4][256], sign[256];
static uint32_t steps[256];

// ---- tables (ITU-T T.800, tables D.1 to D.3 and C.2)

static unsigned zero_context(unsigned kind, unsigned word) {
    unsigned h = (word & 1) + (word >> 1 & 1), v = (word >> 2 & 1) + (word >> 3 & 1), d = __builtin_popcount(word & 0xf0);
    if (kind == 3) {
        if (d > 2) return 8;
        if (d == 2) return h + v ? 7 : 6;
        if (d == 1) return h + v > 1 ? 5 : 3 + h + v;
        return h + v > 1 ? 2 : h + v;
    }
    if (kind == 1) {
        unsigned swap = h;
        h = v;
        v = swap;
    }
    if (h == 2) return 8;
    if (h == 1) return v ? 7 : d ? 6 : 5;
    if (v) return v + 2;
    return d > 1 ? 2 : d;
}

static int sign_of(unsigned i, unsigned first) {
    int sum = 0;
    for (unsigned k = first; k < first + 2; k++)
        if (i >> k & 1) sum += i >> (4 + k) & 1 ? -1 : 1;
    return sum > 0 ? 1 : sum < 0 ? -1 : 0;
}

static unsigned sign_code(unsigned i) {
    int h = sign_of(i, 0), v = sign_of(i, 2), flips = h < 0 || (h == 0 && v < 0);
    if (flips) h = -h, v = -v;
    return 2 * (h ? 12 + v : 9 + v) + flips;
}

void make_tables(const uint32_t rows[256]) {
    for (unsigned i = 0; i < 256; i++) {
        for (unsigned kind = 0; kind < 4; kind++) zero[kind][i] = 2 * zero_context(kind, i);
        sign[i] = sign_code(i);
        steps[i] = rows[i];
    }
}

// ---- bitmaps

// 8 x 8 bits, so that byte j is bit j of each byte.
static uint64_t turned(uint64_t x) {
    uint64_t t = (x ^ x >> 7) & 0x00aa00aa00aa00aaull;
    x ^= t ^ t << 7;
    t = (x ^ x >> 14) & 0x0000cccc0000ccccull;
    x ^= t ^ t << 14;
    t = (x ^ x >> 28) & 0x00000000f0f0f0f0ull;
    return x ^ t ^ t << 28;
}

static void gather(uint64_t planes[][16], unsigned w, const uint8_t *bytes) {
    uint64_t parts[8], all = 0;
    for (unsigned k = 0; k < 8; k++) {
        memcpy(&parts[k], bytes + 8 * k, 8);
        all |= parts[k];
    }
    if (all)
        for (unsigned k = 0; k < 8; k++) parts[k] = turned(parts[k]);
    for (unsigned j = 0; j < 8; j++) {
        uint64_t word = 0;
        for (unsigned k = 0; k < 8; k++) word |= (parts[k] >> 8 * j & 255) << 8 * k;
        planes[j][w] = word;
    }
}

static void make_maps(struct scratch *s, const int32_t *values, unsigned width, unsigned height) {
    uint32_t greatest = 0;
    memset(s->negative, 0, sizeof s->negative);
    for (unsigned stripe = 0; stripe < 8; stripe++) {
        uint8_t low[128] = {0}, high[128] = {0}, minus[128] = {0};
        unsigned rows = 4 * stripe >= height ? 0 : height - 4 * stripe < 4 ? height - 4 * stripe : 4;
        for (unsigned r = 0; r < rows; r++) {
            const int32_t *row = values + (4 * stripe + r) * width;
            for (unsigned x = 0; x < width; x++) {
                uint32_t magnitude = row[x] < 0 ? -row[x] : row[x];
                greatest |= magnitude;
                low[4 * x + r] = magnitude;
                high[4 * x + r] = magnitude >> 8;
                minus[4 * x + r] = row[x] < 0;
            }
        }
        for (unsigned half = 0; half < 2; half++) {
            unsigned w = 2 * stripe + half, columns = width < 16 * half ? 0 : width - 16 * half;
            uint64_t wide = columns > 15 ? ~0ull : (1ull << 4 * columns) - 1;
            s->ok[w] = ((1ull << rows) - 1) * 0x1111111111111111ull & wide;
            gather(s->planes, w, low + 64 * half);
            gather(s->planes + 8, w, high + 64 * half);
            for (unsigned k = 0; k < 8; k++) {
                uint64_t part;
                memcpy(&part, minus + 64 * half + 8 * k, 8);
                s->negative[w] |= (part * 0x0102040810204080ull >> 56) << 8 * k;
            }
        }
    }
    s->plane_count = greatest ? 32 - __builtin_clz(greatest) : 0;
}

// ---- passes

#define ONES 0x1111111111111111ull

static uint64_t touched(const uint64_t *sig, uint64_t c) {
    uint64_t v = (c << 1 & 14 * ONES) | (sig[-2] >> 3 & ONES) | (c >> 1 & 7 * ONES) | (sig[2] << 3 & 8 * ONES);
    return v;
}

// The samples of word w that have a significant neighbour.
static uint64_t near(const uint64_t *sig, unsigned w) {
    const uint64_t *at = sig + 2 + w, *other = sig + 2 + (w ^ 1);
    uint64_t v = touched(at, *at), t = v | *at, o = touched(other, *other) | *other;
    return v | t << 4 | t >> 4 | (w & 1 ? o >> 60 : o << 60);
}

static void mark(uint16_t *word, unsigned negative) {
    unsigned signs = -negative & 0xf00;
    word[1] |= 0x01 | (signs & 0x100);
    word[-1] |= 0x02 | (signs & 0x200);
    word[34] |= 0x04 | (signs & 0x400);
    word[-34] |= 0x08 | (signs & 0x800);
    word[35] |= 0x10;
    word[33] |= 0x20;
    word[-33] |= 0x40;
    word[-35] |= 0x80;
}

static const uint8_t offset[64] = {
    0, 34, 68, 102, 1, 35, 69, 103, 2, 36, 70, 104, 3, 37, 71, 105, 4, 38, 72, 106, 5, 39, 73, 107, 6, 40, 74, 108, 7, 41, 75, 109,
    8, 42, 76, 110, 9, 43, 77, 111, 10, 44, 78, 112, 11, 45, 79, 113, 12, 46, 80, 114, 13, 47, 81, 115, 14, 48, 82, 116, 15, 49, 83, 117,
};

static uint16_t *words_of(struct scratch *s, unsigned w) {
    return s->word + ((w >> 1) * 4 + 1) * 34 + (w & 1) * 16 + 1;
}

// The sign of a sample that becomes significant.
static uint8_t *tell(struct scratch *s, unsigned w, uint64_t one, uint16_t *word, uint8_t *to) {
    unsigned negative = (s->negative[w] & one) != 0;
    *to++ = sign[(*word & 15) | (*word >> 4 & 0xf0)] ^ negative;
    mark(word, negative);
    s->sig[2 + w] |= one;
    return to;
}

static uint8_t *propagate(struct scratch *s, const uint64_t *plane, const uint8_t *zeros, uint8_t *to) {
    static const uint8_t later[4] = {0x32, 0x3a, 0x3a, 0x18};
    for (unsigned w = 0; w < 16; w++) {
        uint64_t bits = plane[w], free = ~s->sig[2 + w] & s->ok[w], left = near(s->sig, w) & free, visited = left;
        uint16_t *words = words_of(s, w);
        while (left) {
            uint64_t one = left & -left;
            unsigned i = __builtin_ctzll(left);
            uint16_t *word = words + offset[i];
            left ^= one;
            if (bits & one) {
                *to++ = zeros[*word & 255] | 1;
                to = tell(s, w, one, word, to);
                free &= ~one;
                uint64_t more = later[i & 3] * one & free;
                left |= more;
                visited |= more;
            } else {
                *to++ = zeros[*word & 255];
            }
        }
        s->visited[w] = visited;
    }
    return to;
}

static uint8_t *refine(struct scratch *s, const uint64_t *plane, uint8_t *to) {
    for (unsigned w = 0; w < 16; w++) {
        uint64_t bits = plane[w], left = s->sig[2 + w] & ~s->visited[w], old = s->refined[w], fresh = near(s->sig, w) & ~old;
        s->refined[w] = left;
        while (left) {
            uint64_t one = left & -left;
            left ^= one;
            *to++ = 28 + 4 * ((old & one) != 0) + 2 * ((fresh & one) != 0) + ((bits & one) != 0);
        }
    }
    return to;
}

static uint8_t *clean(struct scratch *s, const uint64_t *plane, const uint8_t *zeros, uint8_t *to) {
    for (unsigned w = 0; w < 16; w++) {
        uint64_t bits = plane[w], left = s->ok[w] & ~(s->sig[2 + w] | s->visited[w]), all = left & ~near(s->sig, w);
        uint64_t runs = all & all >> 1;
        runs &= runs >> 2 & ONES;
        uint16_t *words = words_of(s, w);
        while (left) {
            uint64_t one = left & -left;
            unsigned i = __builtin_ctzll(left);
            if (runs & one) {
                unsigned four = bits >> i & 15;
                left &= ~(15 * one);
                if (!four) {
                    *to++ = 34;
                    continue;
                }
                unsigned r = __builtin_ctz(four);
                *to++ = 35;
                *to++ = 36 + (r >> 1);
                *to++ = 36 + (r & 1);
                left |= (14ull << r & 15) << i;
                one <<= r;
                i += r;
                to = tell(s, w, one, words + offset[i], to);
            } else {
                uint16_t *word = words + offset[i];
                left ^= one;
                if (!(bits & one)) {
                    *to++ = zeros[*word & 255];
                    continue;
                }
                *to++ = zeros[*word & 255] | 1;
                to = tell(s, w, one, word, to);
            }
            runs &= ~(16ull << (i & 60));
        }
    }
    return to;
}

static uint8_t *form_plane(struct scratch *s, unsigned p, const uint8_t *zeros, uint8_t *to) {
    to = propagate(s, s->planes[p], zeros, to);
    to = refine(s, s->planes[p], to);
    return clean(s, s->planes[p], zeros, to);
}

static void begin(struct scratch *s, const struct block *b) {
    make_maps(s, b->values, b->width, b->height);
    memset(s->word, 0, sizeof s->word);
    memset(s->sig, 0, sizeof s->sig);
    memset(s->refined, 0, sizeof s->refined);
}

static unsigned lowest_of(const struct scratch *s, unsigned half) {
    return half ? s->plane_count / 2 : 0;
}

// ---- the arithmetic coder, the last byte of which stays in a register until the next one comes

struct coder {
    uint32_t a, c, ct, last;
    uint8_t states[19];
    size_t at;
};

static const struct coder fresh = {0x8000, 0, 12, 0, {8, 0, 0, 0, 0, 0, 0, 0, 0, 0, 0, 0, 0, 0, 0, 0, 0, 6, 92}, 0};

static void code_all(struct coder *e, const uint8_t *decisions, const uint8_t *end, uint8_t *out) {
    uint32_t a = e->a, c = e->c, ct = e->ct;
    size_t at = e->at;
    uint8_t last = e->last;
    for (; decisions != end; decisions++) {
        uint32_t d = *decisions, state = e->states[d >> 1], step = steps[2 * state + (d & 1)];
        uint32_t qe = step & 0xffff, less = a - 2 * qe;
        uint32_t upper = (uint32_t)((int32_t)less >> 31) ^ (uint32_t)((int32_t)step >> 31);
        a = qe + (less & upper);
        c += qe & upper;
        e->states[d >> 1] = a < 0x8000 ? step >> 16 & 0x7f : state;
        uint32_t shift = __builtin_clz(a) - 16;
        a <<= shift;
        while (__builtin_expect(shift >= ct, 0)) {
            shift -= ct;
            c <<= ct;
            if (last != 0xff && c >= 0x8000000) {
                last++;
                c &= 0x7ffffff;
            }
            if (at == ROOM - 4) return;
            out[at++] = last;
            if (last == 0xff) {
                last = c >> 20;
                c &= 0xfffff;
                ct = 7;
            } else {
                last = c >> 19;
                c &= 0x7ffff;
                ct = 8;
            }
        }
        c <<= shift;
        ct -= shift;
    }
    e->a = a;
    e->c = c;
    e->ct = ct;
    e->at = at;
    e->last = last;
}

// The length of the codeword that ends here, the bytes of which end at out[1..].
static uint32_t flush(const struct coder *e, uint8_t *out) {
    uint32_t top = e->c + e->a, c = e->c | 0xffff, ct = e->ct, last = e->last;
    size_t at = e->at;
    if (c >= top) c -= 0x8000;
    for (int k = 0; k < 2; k++) {
        c <<= ct;
        if (last != 0xff && c >= 0x8000000) {
            last++;
            c &= 0x7ffffff;
        }
        out[at++] = last;
        ct = last == 0xff ? 7 : 8;
        last = last == 0xff ? c >> 20 : c >> 19 & 0xff;
        c &= ct == 7 ? 0xfffff : 0x7ffff;
    }
    out[at] = last;
    return last == 0xff ? at - 1 : at;
}

// ---- blocks

uint32_t c_form(struct scratch *s, const struct block *b, unsigned half, uint8_t *decisions) {
    uint8_t *to = decisions;
    begin(s, b);
    for (unsigned p = s->plane_count; p-- > lowest_of(s, half);) to = form_plane(s, p, zero[b->kind], to);
    return to - decisions;
}

uint32_t c_list(const uint8_t *decisions, uint32_t n, uint8_t *out) {
    struct coder e = fresh;
    code_all(&e, decisions, decisions + n, out);
    return e.at;
}

uint32_t c_block(struct scratch *s, const struct block *b, unsigned half, uint8_t *out) {
    struct coder e = fresh;
    begin(s, b);
    if (!s->plane_count) return 0;
    for (unsigned p = s->plane_count; p-- > lowest_of(s, half);) {
        uint8_t list[4096], tail[8], *end = form_plane(s, p, zero[b->kind], list);
        code_all(&e, list, end, out);
        struct coder short_end = e;
        short_end.at = 0;
        s->endings[p] = (struct ending){e.at + flush(&short_end, tail), e.a, e.c, e.ct, e.last, e.at};
    }
    return flush(&e, out);
}
