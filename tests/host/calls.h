/* Groups of calls on one surface, on damaged ones, and at the edges. */
#ifndef CALLS_H
#define CALLS_H

#include "lending.h"

/* List with a room of this length. */
uint64_t listed_in(struct call_case *c, uint64_t room);

/* "W times the number of scanned rows is always enough room": list a surface that
 * stands with room for exactly so many entries; the library must be done.
 * Gives the number of entries. */
unsigned listed_in_bound(struct call_case *c);

/* How many lists were lent so, and how many of them had no entry less. */
extern unsigned long bounds_lent, bounds_filled;

/* Check, and list with rooms of several lengths; gives the check's result. */
uint64_t checked_and_listed(struct call_case *c);

/* Clear, whatever the buffers hold. */
void cleared_over(struct call_case *c);

/* Weights and tables of any bytes, and of bytes that nearly mean something. */
void garbage(struct call_case *c);

/* Sizes at the edges, lengths at the edges on one size, and both drawn. */
void edge_sides(struct call_case *c);
void edge_lengths(struct call_case *c, uint64_t w, uint64_t h);
void some_edge(struct call_case *c);

#endif
