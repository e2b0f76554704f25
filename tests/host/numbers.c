#include "numbers.h"

static uint64_t state;

void numbers_from(uint64_t seed) { state = seed; }

/* splitmix64 */
uint64_t draw(void)
{
    uint64_t z = state += 0x9e3779b97f4a7c15u;
    z = (z ^ (z >> 30)) * 0xbf58476d1ce4e5b9u;
    z = (z ^ (z >> 27)) * 0x94d049bb133111ebu;
    return z ^ (z >> 31);
}

unsigned below(unsigned n) { return (unsigned)(draw() % n); }
unsigned from_to(unsigned least, unsigned most) { return least + below(most - least + 1); }
int one_in(unsigned n) { return below(n) == 0; }
uint8_t any_byte(void) { return (uint8_t)draw(); }
