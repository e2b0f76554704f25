/* Seeded numbers: the same seed gives the same cases on every machine. */
#ifndef NUMBERS_H
#define NUMBERS_H

#include <stdint.h>

void numbers_from(uint64_t seed);
uint64_t draw(void);
unsigned below(unsigned n);                     /* 0..n-1 */
unsigned from_to(unsigned least, unsigned most);
int one_in(unsigned n);
uint8_t any_byte(void);

#endif
