// The arithmetic coder of ITU-T T.800, Annex C, in C, and a comparison of the two coders' times.
// Both keep their states as one number with the more probable symbol, and double by a count of leading zeros.
#include <stdint.h>
#include <stdio.h>
#include <stdlib.h>
#include <string.h>
#include <time.h>

uint32_t rattle_encode(const uint8_t *decisions, size_t n, uint8_t *out, size_t room);
uint32_t rattle_decode(const uint8_t *bytes, size_t len, const uint8_t *decisions, size_t n);
void rattle_lists(const uint8_t *lists, size_t n, uint8_t *out, size_t room, uint32_t *lengths, size_t blocks);
uint32_t clang_list(const uint8_t *decisions, size_t n, uint8_t *out, size_t room);
uint32_t gcc_list(const uint8_t *decisions, size_t n, uint8_t *out, size_t room);

struct row { uint32_t qe; uint8_t mps, after_mps, after_lps; };
static struct row rows[94];
static const struct { uint16_t qe; uint8_t nmps, nlps, change; } table[47] = {
    {0x5601, 1, 1, 1},
    {0x3401, 2, 6, 0},
    {0x1801, 3, 9, 0},
    {0x0ac1, 4, 12, 0},
    {0x0521, 5, 29, 0},
    {0x0221, 38, 33, 0},
    {0x5601, 7, 6, 1},
    {0x5401, 8, 14, 0},
    {0x4801, 9, 14, 0},
    {0x3801, 10, 14, 0},
    {0x3001, 11, 17, 0},
    {0x2401, 12, 18, 0},
    {0x1c01, 13, 20, 0},
    {0x1601, 29, 21, 0},
    {0x5601, 15, 14, 1},
    {0x5401, 16, 14, 0},
    {0x5101, 17, 15, 0},
    {0x4801, 18, 16, 0},
    {0x3801, 19, 17, 0},
    {0x3401, 20, 18, 0},
    {0x3001, 21, 19, 0},
    {0x2801, 22, 19, 0},
    {0x2401, 23, 20, 0},
    {0x2201, 24, 21, 0},
    {0x1c01, 25, 22, 0},
    {0x1801, 26, 23, 0},
    {0x1601, 27, 24, 0},
    {0x1401, 28, 25, 0},
    {0x1201, 29, 26, 0},
    {0x1101, 30, 27, 0},
    {0x0ac1, 31, 28, 0},
    {0x09c1, 32, 29, 0},
    {0x08a1, 33, 30, 0},
    {0x0521, 34, 31, 0},
    {0x0441, 35, 32, 0},
    {0x02a1, 36, 33, 0},
    {0x0221, 37, 34, 0},
    {0x0141, 38, 35, 0},
    {0x0111, 39, 36, 0},
    {0x0085, 40, 37, 0},
    {0x0049, 41, 38, 0},
    {0x0025, 42, 39, 0},
    {0x0015, 43, 40, 0},
    {0x0009, 44, 41, 0},
    {0x0005, 45, 42, 0},
    {0x0001, 45, 43, 0},
    {0x5601, 46, 46, 0},
};

static void make_rows(void) {
    for (int i = 0; i < 94; i++) {
        int m = i & 1, k = i >> 1;
        rows[i].qe = table[k].qe;
        rows[i].mps = m;
        rows[i].after_mps = 2 * table[k].nmps + m;
        rows[i].after_lps = 2 * table[k].nlps + (m ^ table[k].change);
    }
}

uint32_t steps[256];

static void make_steps(void) {
    for (int i = 0; i < 188; i++) {
        const struct row *r = &rows[i >> 1];
        int likely = (i & 1) == r->mps;
        steps[i] = r->qe | (uint32_t)(likely ? r->after_mps : r->after_lps) << 16 | (uint32_t)likely << 31;
    }
}

static const uint8_t first[19] = {8, 0, 0, 0, 0, 0, 0, 0, 0, 0, 0, 0, 0, 0, 0, 0, 0, 6, 92};

struct coder { uint32_t a, c, ct; uint8_t states[19]; uint8_t *bytes; size_t len, room; };

static void push(struct coder *e, uint8_t b) {
    if (e->len == e->room) {
        e->room = e->room ? 2 * e->room : 8;
        e->bytes = realloc(e->bytes, e->room);
        if (!e->bytes) abort();
    }
    e->bytes[e->len++] = b;
}

static void byte_out(struct coder *e) {
    uint32_t last = e->len ? e->bytes[e->len - 1] : 0;
    if (last != 0xff && e->c >= 0x8000000) {
        last++;
        e->bytes[e->len - 1] = last;
        e->c &= 0x7ffffff;
    }
    if (last == 0xff) {
        push(e, e->c >> 20);
        e->c &= 0xfffff;
        e->ct = 7;
    } else {
        push(e, e->c >> 19 & 0xff);
        e->c &= 0x7ffff;
        e->ct = 8;
    }
}

static void renormalise(struct coder *e) {
    uint32_t shift = __builtin_clz(e->a) - 16;
    e->a <<= shift;
    while (shift >= e->ct) {
        shift -= e->ct;
        e->c <<= e->ct;
        byte_out(e);
    }
    e->c <<= shift;
    e->ct -= shift;
}

static void code(struct coder *e, unsigned context, unsigned bit) {
    struct row r = rows[e->states[context]];
    uint32_t a = e->a - r.qe;
    if (bit == r.mps) {
        if (a & 0x8000) {
            e->a = a;
            e->c += r.qe;
            return;
        }
        if (a < r.qe) a = r.qe;
        else e->c += r.qe;
        e->states[context] = r.after_mps;
    } else {
        if (a < r.qe) e->c += r.qe;
        else a = r.qe;
        e->states[context] = r.after_lps;
    }
    e->a = a;
    renormalise(e);
}

static uint32_t c_encode(const uint8_t *decisions, size_t n, uint8_t *out, size_t room) {
    struct coder e = {0x8000, 0, 12};
    memcpy(e.states, first, 19);
    for (size_t i = 0; i < n; i++) {
        unsigned k = decisions[i] & 31;
        code(&e, k < 18 ? k : 18, decisions[i] >> 7);
    }
    uint32_t top = e.c + e.a;
    e.c |= 0xffff;
    if (e.c >= top) e.c -= 0x8000;
    e.c <<= e.ct;
    byte_out(&e);
    e.c <<= e.ct;
    byte_out(&e);
    if (e.bytes[e.len - 1] == 0xff) e.len--;
    size_t len = e.len < room ? e.len : room;
    memcpy(out, e.bytes, len);
    free(e.bytes);
    return len;
}

struct reader { uint32_t a, c, ct; const uint8_t *next, *end; uint8_t current; uint8_t states[19]; };

static void byte_in(struct reader *d) {
    uint32_t b = d->next < d->end ? *d->next : 0xff;
    if (d->current == 0xff) {
        if (b > 0x8f) {
            d->c += 0xff00;
            d->ct = 8;
            return;
        }
        d->c += b << 9;
        d->ct = 7;
    } else {
        d->c += b << 8;
        d->ct = 8;
    }
    d->current = b;
    if (d->next < d->end) d->next++;
}

static unsigned read_bit(struct reader *d, unsigned context) {
    struct row r = rows[d->states[context]];
    uint32_t a = d->a - r.qe;
    unsigned bit;
    if (d->c >> 16 < r.qe) {
        if (a < r.qe) bit = r.mps, d->states[context] = r.after_mps;
        else bit = !r.mps, d->states[context] = r.after_lps;
        a = r.qe;
    } else {
        d->c -= r.qe << 16;
        if (a & 0x8000) {
            d->a = a;
            return r.mps;
        }
        if (a < r.qe) bit = !r.mps, d->states[context] = r.after_lps;
        else bit = r.mps, d->states[context] = r.after_mps;
    }
    uint32_t shift = __builtin_clz(a) - 16;
    d->a = a << shift;
    while (shift > d->ct) {
        shift -= d->ct;
        d->c <<= d->ct;
        byte_in(d);
    }
    d->c <<= shift;
    d->ct -= shift;
    return bit;
}

static uint32_t c_decode(const uint8_t *bytes, size_t len, const uint8_t *decisions, size_t n) {
    struct reader d = {0x8000};
    memcpy(d.states, first, 19);
    d.next = bytes;
    d.end = bytes + len;
    d.current = len ? *d.next++ : 0xff;
    d.c = (uint32_t)d.current << 16;
    byte_in(&d);
    d.c <<= 7;
    d.ct -= 7;
    uint32_t wrong = 0;
    for (size_t i = 0; i < n; i++) {
        unsigned k = decisions[i] & 31;
        if (read_bit(&d, k < 18 ? k : 18) != decisions[i] >> 7) wrong++;
    }
    return wrong;
}

enum { BLOCK = 4000, BLOCKS = 12500, ROOM = 4096 };
static uint8_t decisions[(size_t)BLOCK * BLOCKS], coded[(size_t)ROOM * BLOCKS], other[(size_t)ROOM * BLOCKS];
static uint32_t lengths[BLOCKS], list_lengths[3][BLOCKS];
static uint8_t lists[(size_t)BLOCK * BLOCKS], list_bytes[3][(size_t)ROOM * BLOCKS];

static uint64_t seed = 88172645463325252ull;
static uint32_t random32(void) {
    seed ^= seed << 13;
    seed ^= seed >> 7;
    seed ^= seed << 17;
    return seed >> 32;
}

// Contexts as passes over a block draw them: zero contexts most, then refinement, signs and runs.
// A context's bit is its likely one in three of four cases, more often in the run context.
static void make_decisions(void) {
    for (size_t i = 0; i < sizeof decisions; i++) {
        uint32_t r = random32() % 100, k;
        if (r < 30) k = 0;
        else if (r < 55) k = 1 + random32() % 8;
        else if (r < 70) k = 9 + random32() % 5;
        else if (r < 90) k = 14 + random32() % 3;
        else if (r < 98) k = 17;
        else k = 18;
        uint32_t likely = k >= 9 && k <= 13 ? (k & 1) : 0;
        uint32_t unlikely = k == 17 ? 12 : k == 18 ? 128 : k == 0 ? 32 : 64 + 4 * (k & 7);
        uint32_t bit = likely ^ (random32() % 256 < unlikely);
        decisions[i] = k | bit << 7;
        lists[i] = 2 * k + bit;
    }
}

static double now(void) {
    struct timespec t;
    clock_gettime(CLOCK_PROCESS_CPUTIME_ID, &t);
    return t.tv_sec + t.tv_nsec / 1e9;
}

static double best[7] = {1e9, 1e9, 1e9, 1e9, 1e9, 1e9, 1e9};

static void took(int which, double since) {
    double time = now() - since;
    if (time < best[which]) best[which] = time;
}

// The list calls by turns: C by clang, C by gcc, Rattle. Their bytes are those before a flush.
static int code_lists(void) {
    double t = now();
    for (size_t b = 0; b < BLOCKS; b++) list_lengths[0][b] = clang_list(lists + b * BLOCK, BLOCK, list_bytes[0] + b * ROOM, ROOM);
    took(4, t);
    t = now();
    for (size_t b = 0; b < BLOCKS; b++) list_lengths[1][b] = gcc_list(lists + b * BLOCK, BLOCK, list_bytes[1] + b * ROOM, ROOM);
    took(5, t);
    t = now();
    rattle_lists(lists, sizeof lists, list_bytes[2], sizeof list_bytes[2], list_lengths[2], BLOCKS);
    took(6, t);
    for (size_t b = 0; b < BLOCKS; b++) {
        uint32_t len = list_lengths[0][b];
        if (len == 0 || len != list_lengths[1][b] || len != list_lengths[2][b]) return printf("lists' lengths differ at block %zu\n", b), 1;
        if (len + 2 < lengths[b] || lengths[b] < len + 1) return printf("a flush adds one or two bytes: block %zu\n", b), 1;
        if (memcmp(list_bytes[0] + b * ROOM + 1, list_bytes[1] + b * ROOM + 1, len)) return printf("C's lists differ at block %zu\n", b), 1;
        if (memcmp(list_bytes[0] + b * ROOM + 1, list_bytes[2] + b * ROOM, len)) return printf("lists differ at block %zu\n", b), 1;
    }
    return 0;
}

static int code_one_by_one(uint64_t *total) {
    double t = now();
    for (size_t b = 0; b < BLOCKS; b++) lengths[b] = c_encode(decisions + b * BLOCK, BLOCK, coded + b * ROOM, ROOM);
    took(0, t);
    t = now();
    *total = 0;
    for (size_t b = 0; b < BLOCKS; b++) {
        uint32_t len = rattle_encode(decisions + b * BLOCK, BLOCK, other + b * ROOM, ROOM);
        if (len != lengths[b]) return printf("lengths differ at block %zu: %u %u\n", b, len, lengths[b]), 1;
        *total += len;
    }
    took(1, t);
    for (size_t b = 0; b < BLOCKS; b++)
        if (memcmp(coded + b * ROOM, other + b * ROOM, lengths[b])) return printf("bytes differ at block %zu\n", b), 1;
    return 0;
}

static int read_back(void) {
    uint32_t wrong = 0;
    double t = now();
    for (size_t b = 0; b < BLOCKS; b++) wrong += c_decode(coded + b * ROOM, lengths[b], decisions + b * BLOCK, BLOCK);
    took(2, t);
    t = now();
    for (size_t b = 0; b < BLOCKS; b++) wrong += rattle_decode(coded + b * ROOM, lengths[b], decisions + b * BLOCK, BLOCK);
    took(3, t);
    if (wrong) printf("%u wrong bits\n", wrong);
    return wrong != 0;
}

int main(int argc, char **argv) {
    int rounds = argc > 1 ? atoi(argv[1]) : 10;
    make_rows();
    make_steps();
    make_decisions();
    uint64_t total = 0;
    for (int round = 0; round < rounds; round++)
        if (code_one_by_one(&total) || read_back() || code_lists()) return 1;
    double n = sizeof decisions / 1e9, list = best[4] < best[5] ? best[4] : best[5];
    printf("%zu decisions, %llu bytes, best of %d; ns a decision\n", sizeof decisions, (unsigned long long)total, rounds);
    printf("encoder: C %.2f, Rattle %.2f, ratio %.2f\n", best[0] / n, best[1] / n, best[1] / best[0]);
    printf("reader:  C %.2f, Rattle %.2f, ratio %.2f\n", best[2] / n, best[3] / n, best[3] / best[2]);
    printf("lists:   C by clang %.2f, C by gcc %.2f, Rattle %.2f, ratio to the better %.2f\n", best[4] / n, best[5] / n, best[6] / n, best[6] / list);
    return 0;
}
