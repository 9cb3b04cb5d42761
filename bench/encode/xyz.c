// Raw frames to PPM pictures of X'Y'Z' with 12 bits, for other encoders: xyz WIDTH HEIGHT POWER PREFIX < RAW
// Frame N goes to PREFIXN.ppm. The colour is the engine's own.
#include <stdint.h>
#include <stdio.h>
#include <stdlib.h>

static uint32_t light[65536], above[4096];

// The greatest r of which r^5 is at most base^(power - 10) * 2^(24 (15 - power)), with base^2: a power of power / 5.
static uint64_t fifths(unsigned power, uint64_t base) {
    unsigned __int128 n = base;
    for (unsigned i = 11; i < power; i++) n *= base;
    n <<= 24 * (15 - power);
    uint64_t root = 0;
    for (int bit = 24; bit >= 0; bit--) {
        unsigned __int128 next = root + ((uint64_t)1 << bit);
        if (next * next * next * next * next <= n) root = next;
    }
    return (base * base >> 24) * root >> 24;
}

static unsigned code_of(uint64_t sum) {
    uint64_t v = (sum >> 16) * 48000 / 52370;
    unsigned low = 0, high = 4096;
    if (v == 0) return 0;
    while (high - low > 1) {
        unsigned middle = (low + high) / 2;
        if (above[middle] <= v) low = middle;
        else high = middle;
    }
    return low;
}

int main(int n, char **words) {
    static const uint64_t weights[3][3] = {{27031, 23434, 11825}, {13938, 46868, 4730}, {1267, 7811, 62279}};
    if (n != 5) return 2;
    size_t width = atoi(words[1]), height = atoi(words[2]), size = width * height * 6;
    unsigned power = atoi(words[3]);
    for (uint64_t s = 0; s < 65536; s++) light[s] = fifths(power, (s << 24) / 65535);
    for (uint64_t y = 0; y < 4096; y++) above[y] = fifths(13, (y << 24) / 4095);
    uint8_t *raw = malloc(size);
    for (unsigned frame = 0; fread(raw, 1, size, stdin) == size; frame++) {
        for (size_t at = 0; at < size; at += 6) {
            uint64_t rgb[3];
            for (int i = 0; i < 3; i++) rgb[i] = light[raw[at + 2 * i] * 256 + raw[at + 2 * i + 1]];
            for (int i = 0; i < 3; i++) {
                unsigned code = code_of(weights[i][0] * rgb[0] + weights[i][1] * rgb[1] + weights[i][2] * rgb[2]);
                raw[at + 2 * i] = code >> 8;
                raw[at + 2 * i + 1] = code & 255;
            }
        }
        char name[4096];
        snprintf(name, sizeof name, "%s%u.ppm", words[4], frame);
        FILE *out = fopen(name, "wb");
        if (!out || fprintf(out, "P6\n%zu %zu\n4095\n", width, height) < 0 || fwrite(raw, 1, size, out) != size || fclose(out)) {
            perror(name);
            return 1;
        }
    }
    return 0;
}
