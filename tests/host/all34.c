#include "all34.h"
#include "both.h"
#include "calls.h"
#include "numbers.h"
#include "surfaces.h"

#include <stdio.h>
#include <stdlib.h>
#include <string.h>

static struct call_case c;
static unsigned W, H, laid;
static unsigned long ways;
static uint8_t modules[64][4], kinds[64], taken[8][8];

/* The modules in slots drawn at random, so that the order of the table does
 * not follow that of the places; each of either kind, 0 or 1. */
static void fill_table(void)
{
    unsigned slots = W * H;
    memset(c.lent[TABLE].byte, 0, 8 * slots);
    for (unsigned i = 0; i < laid; i++) {
        uint8_t *s;
        do
            s = c.lent[TABLE].byte + 8 * below(slots);
        while (is_used(s));
        s[0] = (uint8_t)(i + 1);
        memcpy(s + 2, modules[i], 4);
        s[6] = kinds[i] = (uint8_t)below(2);
    }
}

/* A block of one request under each id, put there already. */
static void run_each(void)
{
    c.call = RUN;
    c.lent[REQUESTS].len = 8 * laid;
    fill_any(&c.lent[ANSWERS], 8 * laid);
    both(&c);
}

/* The first one's answer, to an exchange: "the new one may not cover a single old
 * cell" (order 3), nor one of another. */
static void covers_none(void)
{
    const uint8_t *a = c.lent[ANSWERS].byte, new[4] = { a[4], a[5], a[6], a[7] };
    for (unsigned i = 0; i < laid; i++) {
        const uint8_t *m = modules[i];
        if (new[0] < m[0] + m[2] && m[0] < new[0] + new[2] && new[1] < m[1] + m[3] && m[1] < new[1] + new[3]) {
            printf("host: an exchange to %ux%u covers a cell of module %u\n", a[6], a[7], i + 1);
            differ++;
        }
    }
}

/* Each is to be exchanged in turn, mostly for a small one. */
static void exchanged_each(void)
{
    for (unsigned i = 0; i < laid; i++) {
        unsigned rule = below(3), w = from_to(1, one_in(3) ? W : 2), h = from_to(1, one_in(3) ? H : 2);
        put_request(c.lent[REQUESTS].byte + 8 * i, 4, rule, i + 1, w, h, 0, 0);
    }
    run_each();
    if (laid > 0 && c.lent[ANSWERS].byte[0] == 0)
        covers_none();
}

/* "23, remove or exchange of a block, follows 16" (order 2): each is asked away, or
 * to be exchanged for one of 0x0, which is 17 of a module. */
static void asked_away(void)
{
    for (unsigned i = 0; i < laid; i++)
        put_request(c.lent[REQUESTS].byte + 8 * i, one_in(2) ? 2 : 4, 0, i + 1, 0, 0, 0, 0);
    run_each();
    for (unsigned i = 0; i < laid; i++) {
        const uint8_t *a = c.lent[ANSWERS].byte + 8 * i;
        if (a[0] == (kinds[i] == HARD ? 23 : a[1] == 4 ? 17 : 0))
            continue;
        printf("host: operation %u on a record of kind %u: code %u\n", a[1], kinds[i], a[0]);
        differ++;
    }
}

/* Room of W entries for each scanned row; in one case in eight also one byte less
 * than the entries take, and in one in four room for W*H of them or more. In one in
 * three each module is exchanged, and in one in four asked away. */
static void one_way(void)
{
    c.w = W;
    c.h = H;
    c.lent[WEIGHTS].len = 2 * W * H;
    c.lent[TABLE].len = 8 * W * H;
    fill_table();
    paint(&c, 1);
    c.call = CHECK;
    if (both(&c) != 65536u * laid) {
        printf("host: a way to lay %u modules does not stand\n", laid);
        differ++;
    }
    unsigned need = 8 * listed_in_bound(&c);
    if (one_in(8))
        listed_in(&c, need - (need > 0));
    if (one_in(4))
        listed_in(&c, 8 * W * H + below(9));
    if (one_in(3))
        exchanged_each();
    if (one_in(4))
        asked_away();
    ways++;
}

static int can_lay(unsigned x, unsigned y, unsigned w, unsigned h)
{
    for (unsigned j = y; j < y + h; j++)
        for (unsigned i = x; i < x + w; i++)
            if (taken[j][i])
                return 0;
    return 1;
}

static void mark(unsigned x, unsigned y, unsigned w, unsigned h, uint8_t as)
{
    for (unsigned j = y; j < y + h; j++)
        memset(&taken[j][x], as, w);
}

static void from_cell(unsigned at);

/* Each module that has its top left cell here. */
static void modules_at(unsigned at)
{
    unsigned x = at % W, y = at / W;
    for (unsigned h = 1; y + h <= H; h++)
        for (unsigned w = 1; x + w <= W && can_lay(x, y, w, h); w++) {
            uint8_t m[4] = { (uint8_t)x, (uint8_t)y, (uint8_t)w, (uint8_t)h };
            memcpy(modules[laid++], m, 4);
            mark(x, y, w, h, 1);
            from_cell(at + 1);
            mark(x, y, w, h, 0);
            laid--;
        }
}

/* Cell by cell: left empty, or the top left cell of a module. */
static void from_cell(unsigned at)
{
    if (at == W * H) {
        one_way();
        return;
    }
    from_cell(at + 1);
    if (!taken[at / W][at % W])
        modules_at(at);
}

unsigned long every_way(unsigned w, unsigned h)
{
    W = w;
    H = h;
    ways = 0;
    laid = 0;
    memset(taken, 0, sizeof taken);
    from_cell(0);
    return ways;
}
