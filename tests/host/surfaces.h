/* Standing surfaces of many shapes, each reached by requests that the brute
 * force ran; and weights worked out from a table. */
#ifndef SURFACES_H
#define SURFACES_H

#include "lending.h"

enum { SHAPES = 13 };
extern const char *const shape_names[SHAPES];

/* "its kind: 0 a module, 1 a block" (order 2). A block of the fabric is called hard
 * here: a block is one of requests. */
enum { HARD = 1 };

/* A surface of this shape in the case's weights and table. */
void small_surface(struct call_case *c, unsigned shape);
void large_surface(struct call_case *c, unsigned shape);

/* A cleared surface. */
void cleared(struct call_case *c, unsigned w, unsigned h, unsigned slots);

/* A request's eight bytes. */
void put_request(uint8_t *to, unsigned op, unsigned rule, unsigned id, unsigned w, unsigned h, unsigned b6, unsigned b7);

/* One request more for the block, and the block run by the brute force. */
void ask(unsigned op, unsigned rule, unsigned id, unsigned w, unsigned h, unsigned b6, unsigned b7);
void run_asked(struct call_case *c);

int is_used(const uint8_t *slot);
unsigned hards_in(const struct call_case *c);   /* used slots of kind 1 */
int get_weight(const struct call_case *c, unsigned x, unsigned y);
void put_weight(struct call_case *c, unsigned x, unsigned y, int weight);
int has_cell(const uint8_t *slot, unsigned x, unsigned y);
int cell_is_occupied(const struct call_case *c, unsigned x, unsigned y);

/* The weights worked out from the table; where modules share a cell, the
 * first or the last slot that has it counts. */
void paint(struct call_case *c, int first_counts);

#endif
