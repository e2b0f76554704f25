/* Blocks of requests on both: lengths at the edges, and histories cut into
 * blocks in several ways. */
#ifndef BLOCKS_H
#define BLOCKS_H

#include "../exchanges.h"
#include "lending.h"
#include "pins.h"

/* A block on the case's surface, whether it stands or not. */
void some_block(struct call_case *c);

/* A fixed block, on any sizes and lengths; at times cut, or with answers of
 * another length. */
void fixed_block(struct call_case *c);

/* Blocks of 0, 1, 512 and 513 requests, odd lengths, answers of another
 * length. */
void block_edges(struct call_case *c);

/* A history on the case's surface. */
void history(struct call_case *c);

/* The exchanges of all histories, and their tall pins and sets. */
extern struct exchanges exchanged;
extern struct tall pinned;

/* A block that gives each code of each operation. */
void every_request_code(struct call_case *c);

#endif
