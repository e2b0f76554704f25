/* The core of the program `freelist`, over the brute force. It is fed bytes in
 * pieces of any length and writes its lines to a stream. */
#ifndef BRUTE_PROGRAM_H
#define BRUTE_PROGRAM_H

#include <stddef.h>
#include <stdint.h>
#include <stdio.h>

struct program {
    unsigned W, H;              /* 0, 0: no surface yet */
    uint8_t weights[2 * 64 * 64];
    uint8_t table[256 * 8];     /* "keeps a table of 256 slots" */
    uint8_t record[8];          /* the record being read */
    unsigned held;              /* how many bytes of it are here */
};

void program_start(struct program *p);
void program_feed(struct program *p, const uint8_t *bytes, size_t count, FILE *out);
void program_end(struct program *p, FILE *out);

#endif
