/* The brute force: a deliberately naive model of the four calls.
 *
 * "The host firmware is C and calls the library through plain numbers and
 * lent bytes: wider numbers go low byte first, signed in two's complement; a
 * list of them is lent as bytes there and its length tested in bytes
 * (weights: 2*W*H). The buffers lent to one call share no byte. A result is
 * code + 2^16*first count + 2^32*second." */
#ifndef BRUTE_H
#define BRUTE_H

#include "../table.h"

DECLARE_CALLS(brute);

/* How many rows of a surface that stands are scanned: as its table tells. */
unsigned brute_scanned_rows(unsigned w, unsigned h, const uint8_t *table, uint64_t table_len);

#endif
