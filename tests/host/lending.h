/* A call with everything that is lent to it, and the ways to lend bytes so
 * that a read or a write outside of them is seen. */
#ifndef LENDING_H
#define LENDING_H

#include "../table.h"

enum { CAP = 8 * 64 * 64 + 64 };

/* Where null is set, len is 0 and the pointer lent is the null pointer. */
struct bytes {
    uint64_t len;
    int null;
    uint8_t byte[CAP];
};

struct call_case {
    unsigned call;
    uint64_t w, h;
    struct bytes lent[BUFFERS];
};

/* Between canary bytes, at any address; between two pages without access; or
 * exactly as long as asked for, for memcheck. */
enum { CANARIES, GUARDS, HEAP, WAYS };

void lending_begin(void);
uint8_t *lend(unsigned buffer, const struct bytes *b, unsigned way, int read_only);
int around_is_kept(unsigned buffer);    /* the bytes around it, after the call */
void give_back(unsigned buffer);

void fill_any(struct bytes *b, uint64_t len);
void set_bytes(struct bytes *b, const uint8_t *from, uint64_t len);

#endif
