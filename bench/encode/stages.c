// The stages of an encoder: stages FRAMES. FRAMES has raw pictures of 2048 x 1080. Told are the best times of several, in
// processor time, of each picture.
#include <stdbool.h>
#include <stdint.h>
#include <stdio.h>
#include <stdlib.h>
#include <time.h>

enum { RAW = 13271040, ROUNDS = 4, TIMES = 3 };

bool rattle_stage(const uint8_t *, size_t, uint32_t stage, uint32_t times);
uint32_t rattle_encode(const uint8_t *, size_t, uint32_t times);

static uint8_t raw[RAW];
static uint32_t cut;

static double now(void) {
    struct timespec t;
    clock_gettime(CLOCK_PROCESS_CPUTIME_ID, &t);
    return t.tv_sec + t.tv_nsec / 1e9;
}

static double once(uint32_t stage, uint32_t times) {
    double start = now();
    if (stage == 3) cut = rattle_encode(raw, RAW, times);
    else if (!rattle_stage(raw, RAW, stage, times)) exit(1);
    return now() - start;
}

// The milliseconds of a stage: those of more rounds less those of one, in which memory is touched first.
static double best(uint32_t stage) {
    double least = 1e9;
    for (int round = 0; round < ROUNDS; round++) {
        double one = once(stage, 1), more = once(stage, 1 + TIMES);
        if ((more - one) / TIMES < least) least = (more - one) / TIMES;
    }
    return 1000 * least;
}

int main(int n, char **words) {
    FILE *file = n == 2 ? fopen(words[1], "rb") : NULL;
    if (!file) return 2;
    for (int picture = 0; fread(raw, 1, RAW, file) == RAW; picture++) {
        double transform = best(0), sets = best(1), coded = best(2), whole = best(3);
        printf("picture %d: transform %.1f ms, sets %.1f, forecast and code-blocks %.1f, search and stream %.1f, whole %.1f, cut %u\n",
               picture, transform, sets, coded - sets, whole - transform - coded, whole, cut);
    }
    return 0;
}
