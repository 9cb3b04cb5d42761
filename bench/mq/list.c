// The arithmetic coder over a list of decisions, each twice its context and one more where its bit is 1, by masks in
// place of branches. The last byte stays in a register until the next one comes. Built once by each compiler, as NAME.
#include <stddef.h>
#include <stdint.h>

// By states and bits: Qe in bits 0 to 15, the next state in bits 16 to 22, and bit 31 for the more probable symbol.
extern uint32_t steps[256];

// The bytes begin at out[1]; their number, or 0 where there is no room.
uint32_t NAME(const uint8_t *decisions, size_t n, uint8_t *out, size_t room) {
    uint8_t states[19] = {8, 0, 0, 0, 0, 0, 0, 0, 0, 0, 0, 0, 0, 0, 0, 0, 0, 6, 92};
    uint32_t a = 0x8000, c = 0, ct = 12;
    size_t at = 0;
    uint8_t last = 0;
    for (size_t i = 0; i < n; i++) {
        uint32_t d = decisions[i], state = states[d >> 1], step = steps[2 * state + (d & 1)];
        uint32_t qe = step & 0xffff, less = a - 2 * qe;
        uint32_t upper = (uint32_t)((int32_t)less >> 31) ^ (uint32_t)((int32_t)step >> 31);
        a = qe + (less & upper);
        c += qe & upper;
        states[d >> 1] = a < 0x8000 ? step >> 16 & 0x7f : state;
        uint32_t shift = __builtin_clz(a) - 16;
        a <<= shift;
        while (__builtin_expect(shift >= ct, 0)) {
            shift -= ct;
            c <<= ct;
            if (last != 0xff && c >= 0x8000000) {
                last++;
                c &= 0x7ffffff;
            }
            if (at == room) return 0;
            out[at++] = last;
            if (last == 0xff) {
                last = c >> 20;
                c &= 0xfffff;
                ct = 7;
            } else {
                last = c >> 19;
                c &= 0x7ffff;
                ct = 8;
            }
        }
        c <<= shift;
        ct -= shift;
    }
    if (at == room) return 0;
    out[at] = last;
    return at;
}
