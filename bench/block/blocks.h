#include <stddef.h>
#include <stdint.h>

enum { ROOM = 16384, LIST = 32768 };

struct block {
    const int32_t *values;
    unsigned kind, width, height;
};

// The registers behind a bit-plane, and the length of the codeword that ends there.
struct ending {
    uint32_t length, a, c, ct, last, kept;
};

struct scratch {
    uint64_t planes[16][16], negative[16], ok[16], sig[20], refined[16], visited[16];
    uint16_t word[34 * 34];
    unsigned plane_count;
    struct ending endings[16];
};

// By states and bits: Qe in bits 0 to 15, the next state in bits 16 to 22, and bit 31 for the more probable symbol.
void make_tables(const uint32_t rows[256]);
// The decisions of all bit-planes, or of the upper half of them, in a row; their number.
uint32_t c_form(struct scratch *s, const struct block *b, unsigned half, uint8_t *decisions);
// Codes a list; the number of bytes that come out.
uint32_t c_list(const uint8_t *decisions, uint32_t n, uint8_t *out);
// The codeword, from out[1] on; its length.
uint32_t c_block(struct scratch *s, const struct block *b, unsigned half, uint8_t *out);
