#define _DEFAULT_SOURCE
#include "lending.h"
#include "numbers.h"

#include <stdio.h>
#include <stdlib.h>
#include <string.h>
#include <sys/mman.h>

enum { MARGIN = 64, PAGE = 65536, AREA = (CAP + PAGE - 1) / PAGE * PAGE };

/* One loan: where it is, and the canary bytes on each side. */
struct loan {
    unsigned way;
    uint8_t *at;
    uint64_t len, before, after;
    int null;
};

static struct loan loans[BUFFERS];
static uint8_t between_canaries[BUFFERS][CAP + 2 * MARGIN + 16];
static uint8_t *between_guards[BUFFERS];        /* AREA bytes, a guard on each side */

static void must(int went_well, const char *what)
{
    if (went_well)
        return;
    fprintf(stderr, "host: cannot %s\n", what);
    exit(2);
}

void lending_begin(void)
{
    for (unsigned i = 0; i < BUFFERS; i++) {
        uint8_t *p = mmap(NULL, AREA + 2 * PAGE, PROT_NONE, MAP_PRIVATE | MAP_ANONYMOUS, -1, 0);
        must(p != MAP_FAILED, "map pages");
        between_guards[i] = p + PAGE;
    }
}

static uint8_t canary(uint64_t i) { return (uint8_t)(165 + 7 * i); }

static void set_canaries(const struct loan *l)
{
    for (uint64_t i = 0; i < l->before; i++)
        (l->at - l->before)[i] = canary(i);
    for (uint64_t i = 0; i < l->after; i++)
        l->at[l->len + i] = canary(i + 1);
}

/* At any address, odd ones too. */
static void lend_between_canaries(struct loan *l, unsigned buffer)
{
    l->before = l->after = MARGIN;
    l->at = between_canaries[buffer] + MARGIN + below(16);
}

/* The buffer ends where the guard begins, or begins where the other ends. */
static void lend_between_guards(struct loan *l, unsigned buffer)
{
    uint8_t *area = between_guards[buffer];
    uint64_t rest = AREA - l->len;
    int at_end = one_in(2);
    l->at = at_end ? area + rest : area;
    l->before = at_end ? (rest < MARGIN ? rest : MARGIN) : 0;
    l->after = at_end ? 0 : (rest < MARGIN ? rest : MARGIN);
    must(mprotect(area, AREA, PROT_READ | PROT_WRITE) == 0, "open pages");
}

static void lend_on_heap(struct loan *l)
{
    l->before = l->after = 0;
    l->at = malloc(l->len);
    must(l->at != NULL || l->len == 0, "take memory");
}

uint8_t *lend(unsigned buffer, const struct bytes *b, unsigned way, int read_only)
{
    struct loan *l = &loans[buffer];
    l->way = way;
    l->len = b->len;
    l->null = b->null;
    if (way == CANARIES)
        lend_between_canaries(l, buffer);
    else if (way == GUARDS)
        lend_between_guards(l, buffer);
    else
        lend_on_heap(l);
    set_canaries(l);
    if (l->len != 0)
        memcpy(l->at, b->byte, l->len);
    if (way == GUARDS && read_only)
        must(mprotect(between_guards[buffer], AREA, PROT_READ) == 0, "close pages");
    return b->null ? NULL : l->at;
}

int around_is_kept(unsigned buffer)
{
    const struct loan *l = &loans[buffer];
    for (uint64_t i = 0; i < l->before; i++)
        if ((l->at - l->before)[i] != canary(i))
            return 0;
    for (uint64_t i = 0; i < l->after; i++)
        if (l->at[l->len + i] != canary(i + 1))
            return 0;
    return 1;
}

void give_back(unsigned buffer)
{
    if (loans[buffer].way == HEAP)
        free(loans[buffer].at);
}

void fill_any(struct bytes *b, uint64_t len)
{
    b->len = len;
    b->null = 0;
    for (uint64_t i = 0; i < len; i++)
        b->byte[i] = any_byte();
}

void set_bytes(struct bytes *b, const uint8_t *from, uint64_t len)
{
    b->len = len;
    b->null = 0;
    memcpy(b->byte, from, len);
}
