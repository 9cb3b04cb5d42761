// Codestreams, by turns, best of several: main FRAME MADE [STREAM]. FRAME is a raw picture of 2048 x 1080. Its codestream
// goes to the file MADE, which is measured where no STREAM is named.
#include <stdint.h>
#include <stdio.h>
#include <stdlib.h>
#include <string.h>
#include <sys/resource.h>
#include <sys/wait.h>
#include <fcntl.h>
#include <time.h>
#include <unistd.h>

uint32_t rattle_survey(const uint8_t *, size_t);
uint32_t rattle_read(const uint8_t *, size_t);
uint32_t rattle_md5(const uint8_t *, size_t);
uint32_t rattle_picture(const uint8_t *, size_t, uint32_t, uint32_t *, size_t, uint32_t *, size_t, uint32_t, uint32_t,
                        uint8_t *, size_t);

enum { RAW = 13271040, ROOM = 1 << 24, CUTS = 721, MOST = 1302083, ROUNDS = 7, TIMES = 60, WALKS = 12 };
static uint8_t raw[RAW], bytes[ROOM], made[ROOM];
static uint32_t up[CUTS], down[CUTS], sum;

static double now(void) {
    struct timespec t;
    clock_gettime(CLOCK_PROCESS_CPUTIME_ID, &t);
    return t.tv_sec + t.tv_nsec / 1e9;
}

static void keep_least(double *best, double time) {
    if (time < *best) *best = time;
}

static size_t read_file(const char *name, uint8_t *to, size_t room) {
    FILE *file = fopen(name, "rb");
    if (!file) {
        printf("no file %s\n", name);
        exit(1);
    }
    size_t size = fread(to, 1, room, file);
    fclose(file);
    return size;
}

static void write_file(const char *name, const uint8_t *from, size_t size) {
    FILE *file = fopen(name, "wb");
    if (!file || fwrite(from, 1, size, file) != size || fclose(file)) {
        printf("%s couldn't be written\n", name);
        exit(1);
    }
}

// The user time of opj_decompress, or less than 0 where it isn't there or fails.
static double opj_time(const char *name) {
    char target[4096];
    snprintf(target, sizeof target, "%s.ppm", name);
    pid_t child = fork();
    if (child == 0) {
        int nowhere = open("/dev/null", O_WRONLY);
        dup2(nowhere, 1);
        dup2(nowhere, 2);
        execlp("opj_decompress", "opj_decompress", "-i", name, "-o", target, (char *)NULL);
        _exit(127);
    }
    int status;
    struct rusage used;
    if (child < 0 || wait4(child, &status, 0, &used) != child) return -1;
    unlink(target);
    if (!WIFEXITED(status) || WEXITSTATUS(status)) return -1;
    return used.ru_utime.tv_sec + used.ru_utime.tv_usec / 1e6;
}

static double picture(uint32_t walks, uint32_t cut, uint32_t times, uint32_t *length) {
    double start = now();
    *length = rattle_picture(raw, RAW, walks, up, CUTS, down, CUTS, cut, times, made, ROOM);
    return now() - start;
}

// The least cut with at most MOST bytes.
static uint32_t least_cut(void) {
    uint32_t cut = 0;
    while (cut < CUTS - 1 && up[cut] > MOST) cut++;
    return cut;
}

int main(int argc, char **argv) {
    if (argc < 3) return printf("usage: main FRAME MADE [STREAM]\n"), 1;
    if (read_file(argv[1], raw, RAW) != RAW) return printf("the frame is too short\n"), 1;
    uint32_t length;
    picture(1, 0, 0, &length);
    for (int k = 0; k < CUTS; k++)
        if (up[k] != down[CUTS - 1 - k]) return printf("the sizes at cut %d differ\n", k), 1;
    uint32_t cut = least_cut();
    picture(0, cut, 0, &length);
    if (length != up[cut]) return printf("%u bytes at cut %u, and a size of %u\n", length, cut, up[cut]), 1;
    write_file(argv[2], made, length);

    const char *name = argc > 3 ? argv[3] : argv[2];
    size_t size = read_file(name, bytes, ROOM);
    double survey = 1e9, md5 = 1e9, reading = 1e9, opj = 1e9, none = 1e9, written = 1e9, walked = 1e9, no_lowest = 1e9, lowest = 1e9;
    uint32_t blocks = 0, others = 0, lost;
    for (int round = 0; round < ROUNDS; round++) {
        for (int turn = 0; turn < 5; turn++) {
            double start = now();
            blocks = rattle_survey(bytes, size);
            keep_least(&survey, now() - start);
            start = now();
            sum += rattle_md5(bytes, size);
            keep_least(&md5, now() - start);
        }
        double start = now();
        others = rattle_read(bytes, size);
        keep_least(&reading, now() - start);
        double used = opj_time(name);
        if (used >= 0) keep_least(&opj, used);
        keep_least(&none, picture(0, cut, 0, &lost));
        keep_least(&written, picture(0, cut, TIMES, &lost));
        keep_least(&no_lowest, picture(0, 0, 0, &lost));
        keep_least(&lowest, picture(0, 0, TIMES, &lost));
        keep_least(&walked, picture(WALKS, cut, 0, &lost));
    }
    printf("%zu bytes, %u code-blocks\n", size, blocks);
    printf("survey %.3f ms, MD5 %.3f ms, ratio %.2f\n", survey * 1e3, md5 * 1e3, survey / md5);
    if (opj < 1e9)
        printf("reading %.1f ms, opj_decompress %.1f ms of user time, ratio %.2f\n", reading * 1e3, opj * 1e3, reading / opj);
    else
        printf("reading %.1f ms; skipped: opj_decompress\n", reading * 1e3);
    printf("writing: %u bytes at cut %u %.2f ms, %u bytes at cut 0 %.2f ms\n", length, cut,
           (written - none) / TIMES * 1e3, up[0], (lowest - no_lowest) / TIMES * 1e3);
    printf("sizes at all cuts and back: %.2f ms (colour, transform and coding before: %.0f ms)\n", (walked - none) / WALKS * 1e3,
           none * 1e3);
    // Where memory was wanted nothing was read.
    return blocks == 0 || blocks != others || (sum & 1) > 1;
}
