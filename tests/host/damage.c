#include "damage.h"
#include "numbers.h"
#include "surfaces.h"

#include <stdio.h>
#include <stdlib.h>
#include <string.h>

/* ---- which conditions fail --------------------------------------------------- */

/* "every slot is free or has an id, w and h of at least 1, x + w <= W,
 * y + h <= H and zero spare bytes; no two used slots have the same id; no two
 * modules share a cell; and every weight is as above." "A surface stands with kinds
 * 0 and 1 and every other spare byte zero" (order 2). */
enum {
    ID = 1, SIDE = 2, ACROSS = 4, DOWN = 8, KIND = 16, SPARE = 32, SAME_ID = 64, SHARED = 128,
    WEIGHT = 256
};

static unsigned slot_fails(const struct call_case *c, const uint8_t *s)
{
    unsigned f = 0;
    if (!is_used(s))
        return 0;
    f |= s[0] == 0 && s[1] == 0 ? ID : 0;
    f |= s[4] == 0 || s[5] == 0 ? SIDE : 0;
    f |= s[2] + s[4] + 0u > c->w ? ACROSS : 0;
    f |= s[3] + s[5] + 0u > c->h ? DOWN : 0;
    f |= s[6] != 0 && s[6] != HARD ? KIND : 0;
    f |= s[7] != 0 ? SPARE : 0;
    return f;
}

static unsigned ids_fail(const struct call_case *c)
{
    const struct bytes *t = &c->lent[TABLE];
    for (uint64_t i = 0; i < t->len; i += 8)
        for (uint64_t j = 0; j < i; j += 8)
            if (is_used(t->byte + i) && is_used(t->byte + j)
                && memcmp(t->byte + i, t->byte + j, 2) == 0)
                return SAME_ID;
    return 0;
}

/* A shared cell's weight is right when it agrees with one of its modules. */
static unsigned cell_fails(const struct call_case *c, unsigned x, unsigned y)
{
    const struct bytes *t = &c->lent[TABLE];
    unsigned modules = 0, agree = 0;
    int count = 1;
    for (uint64_t i = 0; i < t->len; i += 8)
        if (has_cell(t->byte + i, x, y)) {
            modules++;
            agree += get_weight(c, x, y) == (int)x - t->byte[i + 2] - t->byte[i + 4];
        }
    if (modules != 0)
        return (modules > 1 ? SHARED : 0) | (agree == 0 ? WEIGHT : 0);
    for (unsigned above = y; above > 0 && !cell_is_occupied(c, x, above - 1); above--)
        count++;
    return get_weight(c, x, y) == count ? 0 : WEIGHT;
}

static unsigned failing(const struct call_case *c)
{
    unsigned f = ids_fail(c);
    for (uint64_t i = 0; i < c->lent[TABLE].len; i += 8)
        f |= slot_fails(c, c->lent[TABLE].byte + i);
    for (unsigned y = 0; y < c->h; y++)
        for (unsigned x = 0; x < c->w; x++)
            f |= cell_fails(c, x, y);
    return f;
}

/* ---- what a kind of damage has to work on --------------------------------------- */

struct ground {
    struct call_case *c;
    unsigned W, H;
    uint8_t *used, *other, *free;       /* two used slots and a free one, or NULL */
    unsigned x, y;                      /* any cell */
};

static uint8_t *some_slot(struct call_case *c, int used, const uint8_t *but)
{
    uint64_t n = c->lent[TABLE].len / 8, from = draw() % n;
    for (uint64_t i = 0; i < n; i++) {
        uint8_t *s = c->lent[TABLE].byte + 8 * ((from + i) % n);
        if (is_used(s) == used && s != but)
            return s;
    }
    return NULL;
}

/* An id that no slot has. */
static unsigned unused_id(const struct call_case *c)
{
    const struct bytes *t = &c->lent[TABLE];
    unsigned id = from_to(1, 65535);
    for (uint64_t i = 0; i < t->len; i += 8)
        if (t->byte[i] + 256u * t->byte[i + 1] == id)
            return unused_id(c);
    return id;
}

/* The module in the free slot, under an id of its own, of either kind. */
static int put_module(struct ground *g, unsigned x, unsigned y, unsigned w, unsigned h)
{
    if (g->free == NULL)
        return 0;
    unsigned id = unused_id(g->c), kind = below(2), s[8] = { id & 255, id >> 8, x, y, w, h, kind, 0 };
    for (unsigned i = 0; i < 8; i++)
        g->free[i] = (uint8_t)s[i];
    return 1;
}

static int all_empty(const struct ground *g, unsigned x, unsigned y, unsigned w, unsigned h)
{
    for (unsigned j = y; j < y + h && j < g->H; j++)
        for (unsigned i = x; i < x + w && i < g->W; i++)
            if (cell_is_occupied(g->c, i, j))
                return 0;
    return 1;
}

/* The module where the part of it on the surface is empty; the weights agree
 * with it. */
static int put_on_empty(struct ground *g, unsigned x, unsigned y, unsigned w, unsigned h)
{
    if (!all_empty(g, x, y, w, h) || !put_module(g, x, y, w, h))
        return 0;
    paint(g->c, 1);
    return 1;
}

/* ---- the kinds; each gives 0 where the surface has not what it takes ------------- */

static int id_zero(struct ground *g)
{
    if (g->used == NULL)
        return 0;
    g->used[0] = g->used[1] = 0;
    return 1;
}

static int width_zero(struct ground *g) { return put_module(g, g->x, g->y, 0, 1); }
static int height_zero(struct ground *g) { return put_module(g, g->x, g->y, 1, 0); }

static int off_by_one_across(struct ground *g) { return put_on_empty(g, g->x, g->y, g->W - g->x + 1, 1); }
static int off_by_one_down(struct ground *g) { return put_on_empty(g, g->x, g->y, 1, g->H - g->y + 1); }
static int beside_the_surface(struct ground *g) { return put_module(g, g->W, g->y, 1, 1); }
static int below_the_surface(struct ground *g) { return put_module(g, g->x, g->H, 1, 1); }

/* The sum in a byte would be on the surface. */
static int wraps_across(struct ground *g)
{
    unsigned w = from_to(1, 100);
    return put_module(g, 256 - w, g->y, w + g->x, 1);
}

static int wraps_down(struct ground *g)
{
    unsigned h = from_to(1, 100);
    return put_module(g, g->x, 256 - h, 1, h + g->y);
}

static int wraps_over_it_across(struct ground *g)
{
    return g->x > 0 && put_on_empty(g, g->x, g->y, 256 - g->x, 1);
}

static int wraps_over_it_down(struct ground *g)
{
    return g->y > 0 && put_on_empty(g, g->x, g->y, 1, 256 - g->y);
}

static int put_kind(struct ground *g, unsigned kind)
{
    if (g->used == NULL)
        return 0;
    g->used[6] = (uint8_t)kind;
    return 1;
}

static int kind_2(struct ground *g) { return put_kind(g, 2); }
static int kind_over_2(struct ground *g) { return put_kind(g, one_in(2) ? 255 : from_to(3, 254)); }

/* Of a slot of this kind. With kind 1 and 255 the sum in a byte would be 0. */
static int put_spare(struct ground *g, unsigned kind)
{
    if (!put_kind(g, kind))
        return 0;
    g->used[7] = (uint8_t)(one_in(3) ? 1 : one_in(2) ? 255 : from_to(2, 254));
    return 1;
}

static int spare_of_module(struct ground *g) { return put_spare(g, 0); }
static int spare_of_hard(struct ground *g) { return put_spare(g, HARD); }

/* "A free slot is eight zero bytes": with a kind it is none, and has neither id
 * nor sides. */
static int kind_in_free(struct ground *g)
{
    if (g->free == NULL)
        return 0;
    g->free[6] = HARD;
    return 1;
}

static int equal_ids(struct ground *g)
{
    if (g->used == NULL || g->other == NULL)
        return 0;
    memcpy(g->used, g->other, 2);
    return 1;
}

static unsigned shared_cells(const struct ground *g, unsigned x, unsigned y, unsigned w, unsigned h)
{
    unsigned n = 0;
    for (unsigned j = y; j < y + h; j++)
        for (unsigned i = x; i < x + w; i++)
            n += cell_is_occupied(g->c, i, j) ? 1u : 0u;
    return n;
}

/* A rectangle that has exactly one occupied cell. */
static int one_cell_shared(struct ground *g, int first_counts)
{
    for (unsigned tries = 0; tries < 60; tries++) {
        unsigned x = below(g->W), y = below(g->H);
        unsigned w = from_to(1, g->W - x), h = from_to(1, g->H - y);
        if (tries > 30)
            w = h = 1;
        if (shared_cells(g, x, y, w, h) == 1 && put_module(g, x, y, w, h)) {
            paint(g->c, first_counts);
            return 1;
        }
    }
    return 0;
}

static int shared_as_first(struct ground *g) { return one_cell_shared(g, 1); }
static int shared_as_last(struct ground *g) { return one_cell_shared(g, 0); }

static int module_twice(struct ground *g)
{
    const uint8_t *u = g->used;
    return u != NULL && put_module(g, u[2], u[3], u[4], u[5]);
}

static int another_weight(int weight)
{
    static const int far[] = { 0, 1, -1, 2, -2, 64, -64, 65, 255, 256, -255, -256, 32767, -32768 };
    int v = one_in(2) ? weight + (one_in(2) ? 1 : -1) : one_in(2) ? -weight
        : one_in(2) ? weight + (one_in(2) ? 256 : -256) : far[below(14)];
    return v == weight ? another_weight(weight) : v;
}

static int wrong_weight(struct ground *g, int occupied)
{
    if (cell_is_occupied(g->c, g->x, g->y) != occupied)
        return 0;
    put_weight(g->c, g->x, g->y, another_weight(get_weight(g->c, g->x, g->y)));
    return 1;
}

static int wrong_weight_empty(struct ground *g) { return wrong_weight(g, 0); }
static int wrong_weight_occupied(struct ground *g) { return wrong_weight(g, 1); }

/* The first and the last cell, whatever stands there. */
static int weight_at(struct ground *g, unsigned x, unsigned y)
{
    g->x = x;
    g->y = y;
    return wrong_weight(g, cell_is_occupied(g->c, x, y));
}

static int first_weight(struct ground *g) { return weight_at(g, 0, 0); }
static int last_weight(struct ground *g) { return weight_at(g, g->W - 1, g->H - 1); }

/* The count below a module goes on as if it were not there. */
static int counted_through(struct ground *g)
{
    for (unsigned y = 0; y < g->H; y++)
        for (unsigned x = 0; x < g->W; x++)
            if (!cell_is_occupied(g->c, x, y))
                put_weight(g->c, x, y, (int)y + 1);
    return failing(g->c) != 0;
}

static int module_gone(struct ground *g)
{
    if (g->used == NULL)
        return 0;
    memset(g->used, 0, 8);
    return 1;
}

static int module_not_in_weights(struct ground *g)
{
    return all_empty(g, g->x, g->y, 1, 1) && put_module(g, g->x, g->y, 1, 1);
}

/* ---- a kind drawn ------------------------------------------------------------------ */

static const struct { const char *name; unsigned fails; int (*make)(struct ground *); } kinds[DAMAGES] = {
    { "id 0 in a used slot", ID, id_zero },
    { "w 0", SIDE, width_zero }, { "h 0", SIDE, height_zero },
    { "x + w = W + 1", ACROSS, off_by_one_across }, { "y + h = H + 1", DOWN, off_by_one_down },
    { "x = W", ACROSS, beside_the_surface }, { "y = H", DOWN, below_the_surface },
    { "x + w wraps in a byte", ACROSS, wraps_across }, { "y + h wraps in a byte", DOWN, wraps_down },
    { "x + w = 256 from the surface", ACROSS, wraps_over_it_across },
    { "y + h = 256 from the surface", DOWN, wraps_over_it_down },
    { "kind 2", KIND, kind_2 }, { "kind over 2", KIND, kind_over_2 },
    { "byte 7 of a module", SPARE, spare_of_module }, { "byte 7 of a block", SPARE, spare_of_hard },
    { "kind 1 in a free slot", ID | SIDE, kind_in_free },
    { "two equal ids", SAME_ID, equal_ids },
    { "one cell shared, weights as the first", SHARED, shared_as_first },
    { "one cell shared, weights as the last", SHARED, shared_as_last },
    { "a module twice", SHARED, module_twice },
    { "a weight of an empty cell", WEIGHT, wrong_weight_empty },
    { "a weight of an occupied cell", WEIGHT, wrong_weight_occupied },
    { "weights counted through", WEIGHT, counted_through },
    { "a module gone from the table", WEIGHT, module_gone },
    { "a module not in the weights", WEIGHT, module_not_in_weights },
    { "the first weight", WEIGHT, first_weight }, { "the last weight", WEIGHT, last_weight } };

const char *damage_name(unsigned kind) { return kinds[kind].name; }

static int try_kind(struct call_case *c, unsigned kind)
{
    struct ground g = { .c = c };
    g.W = (unsigned)c->w;
    g.H = (unsigned)c->h;
    g.used = some_slot(c, 1, NULL);
    g.other = some_slot(c, 1, g.used);
    g.free = some_slot(c, 0, NULL);
    g.x = below(g.W);
    g.y = below(g.H);
    return kinds[kind].make(&g);
}

void damaged_surface(struct call_case *c, unsigned kind,
                     void (*surface)(struct call_case *, unsigned))
{
    unsigned tries = 0;
    do {
        if (tries++ == 10000) {
            fprintf(stderr, "host: no surface for damage: %s\n", kinds[kind].name);
            exit(2);
        }
        surface(c, SHAPES - 1);
    } while (!try_kind(c, kind));
    if (failing(c) != kinds[kind].fails) {
        fprintf(stderr, "host: damage: %s: fails %x\n", kinds[kind].name, failing(c));
        exit(2);
    }
}
