/* Seeded chance; see chance.h. The generator is splitmix64: one addition and three mixes a number. */
#include "chance.h"

#include <string.h>

static uint64_t state;

void chance_from(uint64_t seed) { state = seed; }

uint64_t chance(void) {
    uint64_t mixed = state += UINT64_C(0x9e3779b97f4a7c15);
    mixed = (mixed ^ mixed >> 30) * UINT64_C(0xbf58476d1ce4e5b9);
    mixed = (mixed ^ mixed >> 27) * UINT64_C(0x94d049bb133111eb);
    return mixed ^ mixed >> 31;
}

uint32_t below(uint32_t bound) { return (uint32_t)((chance() >> 32) * bound >> 32); }

int64_t between(int64_t least, int64_t most) { return least + (int64_t)below((uint32_t)(most - least + 1)); }

bool one_in(uint32_t bound) { return below(bound) == 0; }

int64_t one_of(const int64_t *numbers, size_t count) { return numbers[below((uint32_t)count)]; }

void fill_with_chance(void *bytes, size_t length) {
    uint8_t *next = bytes;
    while (length > 0) {
        uint64_t number = chance();
        size_t part = length < sizeof number ? length : sizeof number;
        memcpy(next, &number, part);
        next += part;
        length -= part;
    }
}
