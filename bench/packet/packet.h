// What a packet's header says of blocks.
#include <stdbool.h>
#include <stdint.h>

struct block { bool included; uint8_t zero_planes, passes; uint32_t len; };
struct band { uint32_t columns, rows; const struct block *blocks; };
