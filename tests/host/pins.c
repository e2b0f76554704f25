#include "pins.h"
#include "host.h"
#include "numbers.h"
#include "surfaces.h"

#include <stdio.h>
#include <string.h>

enum { PIN = 3, SET = 6 };

/* ---- places ------------------------------------------------------------------- */

static void put_place(uint8_t place[4], unsigned x, unsigned y, unsigned w, unsigned h)
{
    place[0] = (uint8_t)x;
    place[1] = (uint8_t)y;
    place[2] = (uint8_t)w;
    place[3] = (uint8_t)h;
}

void draw_place(const struct call_case *c, uint8_t place[4], unsigned limit)
{
    unsigned W = (unsigned)c->w, H = (unsigned)c->h;
    unsigned w = from_to(1, W < limit ? W : limit), h = from_to(1, H < limit ? H : limit);
    unsigned x = below(W - w + 1), y = below(H - h + 1);
    put_place(place, x, y, w, h);
}

static int least_weight(const struct call_case *c, unsigned x, unsigned w, unsigned y)
{
    int least = get_weight(c, x, y);
    for (unsigned i = x + 1; i < x + w; i++)
        if (get_weight(c, i, y) < least)
            least = get_weight(c, i, y);
    return least;
}

/* Narrow ones more often, and in the lower rows, where there is more above; a few are
 * drawn until a bottom row is empty. A surface that does not stand may have any
 * weights: the place lies on it anyhow. */
void draw_high_place(const struct call_case *c, uint8_t place[4])
{
    unsigned W = (unsigned)c->w, H = (unsigned)c->h, tries = from_to(1, 8), w, x, bottom, h;
    int least;
    do {
        w = from_to(1, one_in(2) ? W : W / 3 + 1);
        x = below(W - w + 1);
        bottom = one_in(2) ? below(H) : H - 1 - below(H / 4 + 1);
        least = least_weight(c, x, w, bottom);
    } while (least <= 0 && --tries > 0);
    h = least > 0 ? (unsigned)least + below(2) : from_to(1, bottom + 1);
    if (h > bottom + 1)
        h = bottom + 1;
    put_place(place, x, bottom + 1 - h, w, h);
}

/* ---- the library's answer ------------------------------------------------------ */

static int has_free_slot(const struct call_case *c)
{
    for (uint64_t i = 0; i < c->lent[TABLE].len; i += 8)
        if (!is_used(c->lent[TABLE].byte + i))
            return 1;
    return 0;
}

void surface_with_free_slot(struct call_case *c, unsigned shape)
{
    do
        small_surface(c, shape);
    while (!has_free_slot(c));
}

/* The lowest id that no slot has, so that 15 does not come before 21. */
static unsigned unused_id(const struct bytes *table)
{
    unsigned id = 0;
    int is_there = 1;
    while (is_there) {
        id++;
        is_there = 0;
        for (uint64_t i = 0; i < table->len; i += 8)
            is_there |= table->byte[i] + 256u * table->byte[i + 1] == id;
    }
    return id;
}

unsigned library_code(const struct call_case *c, unsigned op, const uint8_t place[4])
{
    uint8_t weights[2 * 64 * 64], table[8 * 256], request[8], answer[8];
    uint64_t weights_len = c->lent[WEIGHTS].len, table_len = c->lent[TABLE].len;
    memcpy(weights, c->lent[WEIGHTS].byte, weights_len);
    memcpy(table, c->lent[TABLE].byte, table_len);
    put_request(request, op, 0, unused_id(&c->lent[TABLE]), place[2], place[3], place[0], place[1]);
    uint64_t result = freelist_run(c->w, c->h, weights, weights_len, table, table_len, request, 8, answer, 8);
    return freelist_code(result) == 0 ? answer[0] : 255;
}

/* ---- counts --------------------------------------------------------------------- */

void count_tall(struct tall *n, const uint8_t request[8], const uint8_t answer[8])
{
    if ((request[0] != PIN && request[0] != SET) || request[5] < TALL_FROM)
        return;
    n->accepted += answer[0] == 0;
    n->refused += answer[0] == 21;
}

void print_tall(const struct tall *n)
{
    printf("pins and sets of height %d or more: %lu accepted, %lu refused with 21\n", TALL_FROM, n->accepted,
           n->refused);
}

int tall_came_up(const struct tall *n, unsigned long least) { return n->accepted >= least && n->refused >= least; }
