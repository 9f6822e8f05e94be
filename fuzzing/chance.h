/* Seeded chance: the same seed gives the same numbers on every machine. */
#ifndef CHANCE_H
#define CHANCE_H

#include <stdbool.h>
#include <stddef.h>
#include <stdint.h>

void chance_from(uint64_t seed);
uint64_t chance(void);

uint32_t below(uint32_t bound);                     /* 0 to bound - 1; 0 where the bound is 0 */
int64_t between(int64_t least, int64_t most);       /* both included */
bool one_in(uint32_t bound);
int64_t one_of(const int64_t *numbers, size_t count);
void fill_with_chance(void *bytes, size_t length);

#define ONE_OF(...) one_of((const int64_t[]){__VA_ARGS__}, sizeof((const int64_t[]){__VA_ARGS__}) / sizeof(int64_t))

#endif
