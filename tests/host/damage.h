/* Surfaces that do not stand: each kind of damage breaks one condition of "a surface
 * stands" and leaves the others (a free slot with a byte set breaks two). */
#ifndef DAMAGE_H
#define DAMAGE_H

#include "lending.h"

enum { DAMAGES = 27 };

const char *damage_name(unsigned kind);

/* A damaged surface of this kind in the case's weights and table; surface
 * draws the one to be damaged. */
void damaged_surface(struct call_case *c, unsigned kind,
                     void (*surface)(struct call_case *, unsigned));

#endif
