/* Pins, and sets, which take a pin's fields (order 2): places drawn for them, the
 * library's answer to one of them, and how those of a test were answered. A place
 * is x, y, w, h. */
#ifndef PINS_H
#define PINS_H

#include "lending.h"

/* Anywhere on the surface, each side up to the limit. */
void draw_place(const struct call_case *c, uint8_t place[4], unsigned limit);

/* As high as the weights of its bottom row say that its columns are empty, or one
 * row higher; of any height where that row is occupied. So it is accepted with no
 * row to spare, or often refused for a cell of its top row alone. */
void draw_high_place(const struct call_case *c, uint8_t place[4]);

/* A small surface of this shape with a free slot, so that 19 does not come before
 * 21. */
void surface_with_free_slot(struct call_case *c, unsigned shape);

/* The library's answer to this operation, 3 or 6, there, on a copy of the surface;
 * 255 where the block is refused. */
unsigned library_code(const struct call_case *c, unsigned op, const uint8_t place[4]);

/* "a rectangle is empty when every cell of its bottom row has a weight of at least its
 * height" (order 4): of a low one that is nearly a question of the sign, so the tall
 * ones are counted, of this height or more. */
enum { TALL_FROM = 4 };

/* Those answered 0 or 21, all others being refused before their cells are looked
 * at. */
struct tall { unsigned long accepted, refused; };

void count_tall(struct tall *n, const uint8_t request[8], const uint8_t answer[8]);
void print_tall(const struct tall *n);

/* Whether there were as many of each. */
int tall_came_up(const struct tall *n, unsigned long least);

#endif
