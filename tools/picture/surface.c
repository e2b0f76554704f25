/* What the rules define on a surface, worked out cell by cell from its modules. */
#include "picture.h"

bool same(struct rectangle a, struct rectangle b)
{
    return a.x == b.x && a.y == b.y && a.w == b.w && a.h == b.h;
}

bool share_cell(struct rectangle a, struct rectangle b)
{
    return a.x < b.x + b.w && b.x < a.x + a.w && a.y < b.y + b.h && b.y < a.y + a.h;
}

bool within(struct rectangle r, unsigned x, unsigned y)
{
    return x >= r.x && x - r.x < r.w && y >= r.y && y - r.y < r.h;
}

bool on_surface(const struct surface *s, struct rectangle r)
{
    return r.w >= 1 && r.h >= 1 && r.x + r.w <= s->W && r.y + r.h <= s->H;
}

/* "An empty cell holds the number of empty cells in its column, itself included, counted upwards without a gap." */
static void weigh_empty_cells(struct surface *s)
{
    for (unsigned y = 0; y < s->H; y++)
        for (unsigned x = 0; x < s->W; x++)
            if (s->weight[y][x] == 0)
                s->weight[y][x] = y > 0 && s->weight[y - 1][x] > 0 ? s->weight[y - 1][x] + 1 : 1;
}

/* "An occupied cell in column c of a module (x, y, w, h) holds -(x + w - c)". */
static void weigh_module(struct surface *s, struct rectangle m)
{
    for (unsigned y = m.y; y < m.y + m.h; y++)
        for (unsigned x = m.x; x < m.x + m.w; x++)
            s->weight[y][x] = -(int)(m.x + m.w - x);
}

void weigh(struct surface *s)
{
    for (unsigned y = 0; y < s->H; y++)
        for (unsigned x = 0; x < s->W; x++)
            s->weight[y][x] = 0;
    for (unsigned i = 0; i < SLOTS_MAX; i++)
        if (s->slot[i].id != 0)
            weigh_module(s, s->slot[i].place);
    weigh_empty_cells(s);
}

/* "A rectangle is empty when it lies on the surface and all its cells are empty." */
bool empty(const struct surface *s, struct rectangle r)
{
    if (!on_surface(s, r))
        return false;
    for (unsigned y = r.y; y < r.y + r.h; y++)
        for (unsigned x = r.x; x < r.x + r.w; x++)
            if (s->weight[y][x] < 0)
                return false;
    return true;
}

/* "It is maximal when no other empty rectangle contains it": then no line of cells along one of its sides is empty. */
bool maximal(const struct surface *s, struct rectangle r)
{
    struct rectangle left = { r.x - 1, r.y, 1, r.h }, right = { r.x + r.w, r.y, 1, r.h };
    struct rectangle above = { r.x, r.y - 1, r.w, 1 }, below = { r.x, r.y + r.h, r.w, 1 };
    return !(r.x > 0 && empty(s, left)) && !empty(s, right) && !(r.y > 0 && empty(s, above)) && !empty(s, below);
}

/* "A row y is scanned when y = H - 1 or some module has its top row at y + 1." */
bool scanned(const struct surface *s, unsigned y)
{
    if (y + 1 == s->H)
        return true;
    for (unsigned i = 0; i < SLOTS_MAX; i++)
        if (s->slot[i].id != 0 && s->slot[i].place.y == y + 1)
            return true;
    return false;
}

/* "A corner is an empty cell of a scanned row that stands in the last column or whose right neighbour has a smaller
 * weight." */
bool corner(const struct surface *s, unsigned x, unsigned y)
{
    const int *weight = s->weight[y];
    return weight[x] > 0 && scanned(s, y) && (x + 1 == s->W || weight[x + 1] < weight[x]);
}

/* The slot of the module on this cell, or -1. */
int slot_at(const struct surface *s, unsigned x, unsigned y)
{
    for (int i = 0; i < SLOTS_MAX && s->weight[y][x] < 0; i++)
        if (s->slot[i].id != 0 && within(s->slot[i].place, x, y))
            return i;
    return -1;
}

/* The used slots of this kind: "0 a module, 1 a block". */
unsigned count_kind(const struct surface *s, bool hard)
{
    unsigned count = 0;
    for (unsigned i = 0; i < SLOTS_MAX; i++)
        count += s->slot[i].id != 0 && s->slot[i].hard == hard;
    return count;
}

/* The sum of what each cell counts. */
static unsigned sum_cells(const struct surface *s, unsigned (*of)(const struct surface *s, unsigned x, unsigned y))
{
    unsigned count = 0;
    for (unsigned y = 0; y < s->H; y++)
        for (unsigned x = 0; x < s->W; x++)
            count += of(s, x, y);
    return count;
}

static unsigned count_free(const struct surface *s, unsigned x, unsigned y) { return s->weight[y][x] > 0; }
static unsigned count_corner(const struct surface *s, unsigned x, unsigned y) { return corner(s, x, y); }

unsigned count_free_cells(const struct surface *s) { return sum_cells(s, count_free); }
unsigned count_corners(const struct surface *s) { return sum_cells(s, count_corner); }

unsigned count_scanned_rows(const struct surface *s)
{
    unsigned count = 0;
    for (unsigned y = 0; y < s->H; y++)
        count += scanned(s, y);
    return count;
}

/* The maximal rectangles with bottom row y and left column x: as the right column moves on, the least weight met is the
 * height up to which the cells are empty. */
static unsigned count_maximal_from(const struct surface *s, unsigned x, unsigned y)
{
    unsigned count = 0;
    unsigned height = y + 1;
    for (unsigned right = x; right < s->W && s->weight[y][right] > 0; right++) {
        if ((unsigned)s->weight[y][right] < height)
            height = (unsigned)s->weight[y][right];
        struct rectangle r = { x, y + 1 - height, right + 1 - x, height };
        count += maximal(s, r);
    }
    return count;
}

unsigned count_maximal(const struct surface *s) { return sum_cells(s, count_maximal_from); }
