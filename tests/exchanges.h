/* How the exchanges of a test were answered, so that it is seen to ask what order
 * 3 is about: "the old trigger must go on watching the bus until the new one is
 * loaded, so the new one may not cover a single old cell". */
#ifndef EXCHANGES_H
#define EXCHANGES_H

#include "table.h"

/* Those answered 0 or 20, all others being refused before their place is looked
 * for. Without the old module: as document 01 judged them. */
struct exchanges {
    unsigned long accepted;
    unsigned long beside;       /* accepted, in a column or at an edge of the old module */
    unsigned long elsewhere;    /* accepted, elsewhere than without the old module */
    unsigned long refused;      /* with 20 */
    unsigned long for_the_old;  /* refused, accepted without the old module */
};

/* Counts the request where it is one of those; on is the surface before it. */
void count_exchange(struct exchanges *n, const struct loans *on, const uint8_t request[8], const uint8_t answer[8]);

void print_exchanges(const struct exchanges *n);

/* Whether each of these came up, and a refusal that is not for the old module. */
int exchanges_came_up(const struct exchanges *n);

#endif
