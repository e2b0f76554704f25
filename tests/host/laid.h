/* A surface laid out by hand: modules in a table of 256 slots, one after the
 * other, each where it can be laid. */
#ifndef LAID_H
#define LAID_H

#include "lending.h"

/* No module yet: the case's table is free, and those that follow go there. */
void lay_none(struct call_case *c, unsigned w, unsigned h);

/* The module in the next slot, where it can be laid. */
void lay(unsigned x, unsigned y, unsigned w, unsigned h);

unsigned laid_modules(void);
unsigned laid_cells(void);
int is_laid(unsigned x, unsigned y);

/* Modules one high, in every second row; and one wide, of growing height. The
 * topmost are in the lowest slots. */
void lay_lying(void);
void lay_upright(void);

#endif
