#include "surfaces.h"
#include "brute.h"
#include "numbers.h"

#include <stdio.h>
#include <stdlib.h>
#include <string.h>

/* ---- requests to the brute force ------------------------------------------ */

static uint8_t block[8 * 512], answers[8 * 512];
static unsigned asked;

void cleared(struct call_case *c, unsigned w, unsigned h, unsigned slots)
{
    struct bytes *weights = &c->lent[WEIGHTS], *table = &c->lent[TABLE];
    c->w = w;
    c->h = h;
    weights->len = 2 * w * h;
    table->len = 8 * slots;
    weights->null = table->null = 0;
    brute_clear(w, h, weights->byte, weights->len, table->byte, table->len);
    asked = 0;
}

void put_request(uint8_t *to, unsigned op, unsigned rule, unsigned id, unsigned w, unsigned h, unsigned b6, unsigned b7)
{
    unsigned q[8] = { op, rule, id & 255, id >> 8, w, h, b6, b7 };
    for (unsigned i = 0; i < 8; i++)
        to[i] = (uint8_t)q[i];
}

void ask(unsigned op, unsigned rule, unsigned id, unsigned w, unsigned h, unsigned b6, unsigned b7)
{
    if (asked < 512)
        put_request(block + 8 * asked++, op, rule, id, w, h, b6, b7);
}

void run_asked(struct call_case *c)
{
    struct bytes *weights = &c->lent[WEIGHTS], *table = &c->lent[TABLE];
    uint64_t r = brute_run(c->w, c->h, weights->byte, weights->len, table->byte, table->len,
                           block, 8 * asked, answers, 8 * asked);
    asked = 0;
    if (part_of(r, 0) == 0)
        return;
    fprintf(stderr, "host: a surface that should stand does not\n");
    exit(2);
}

/* ---- weights from a table --------------------------------------------------- */

int is_used(const uint8_t *slot)
{
    for (unsigned i = 0; i < 8; i++)
        if (slot[i] != 0)
            return 1;
    return 0;
}

unsigned hards_in(const struct call_case *c)
{
    unsigned n = 0;
    for (uint64_t i = 0; i < c->lent[TABLE].len; i += 8)
        n += c->lent[TABLE].byte[i + 6] == HARD;
    return n;
}

int get_weight(const struct call_case *c, unsigned x, unsigned y)
{
    const uint8_t *p = c->lent[WEIGHTS].byte + 2 * (y * c->w + x);
    return (int16_t)(uint16_t)(p[0] | p[1] << 8);
}

void put_weight(struct call_case *c, unsigned x, unsigned y, int weight)
{
    uint8_t *p = c->lent[WEIGHTS].byte + 2 * (y * c->w + x);
    p[0] = (uint8_t)((unsigned)weight & 255);
    p[1] = (uint8_t)((unsigned)weight >> 8 & 255);
}

int has_cell(const uint8_t *slot, unsigned x, unsigned y)
{
    return is_used(slot) && slot[2] <= x && x < slot[2] + slot[4] + 0u
        && slot[3] <= y && y < slot[3] + slot[5] + 0u;
}

int cell_is_occupied(const struct call_case *c, unsigned x, unsigned y)
{
    for (uint64_t i = 0; i < c->lent[TABLE].len; i += 8)
        if (has_cell(c->lent[TABLE].byte + i, x, y))
            return 1;
    return 0;
}

static void paint_module(struct call_case *c, const uint8_t *slot)
{
    for (unsigned y = slot[3]; y < slot[3] + slot[5] + 0u && y < c->h; y++)
        for (unsigned x = slot[2]; x < slot[2] + slot[4] + 0u && x < c->w; x++)
            put_weight(c, x, y, (int)x - slot[2] - slot[4]);
}

/* Every cell 0, then the modules, then the empty cells counted. */
void paint(struct call_case *c, int first_counts)
{
    uint64_t n = c->lent[TABLE].len / 8;
    memset(c->lent[WEIGHTS].byte, 0, c->lent[WEIGHTS].len);
    for (uint64_t i = 0; i < n; i++)
        paint_module(c, c->lent[TABLE].byte + 8 * (first_counts ? n - 1 - i : i));
    for (unsigned y = 0; y < c->h; y++)
        for (unsigned x = 0; x < c->w; x++)
            if (get_weight(c, x, y) == 0) {
                int above = y == 0 ? 0 : get_weight(c, x, y - 1);
                put_weight(c, x, y, above > 0 ? above + 1 : 1);
            }
}

/* ---- shapes ------------------------------------------------------------------- */

/* The surface being drawn; the next id, small, or its high byte running; and how
 * many of 4 rectangles are set as blocks of the fabric, the others pinned. */
static unsigned W, H, id_step, last_id, hard_of_4;

static unsigned next_id(void) { return last_id = (last_id + id_step) % 65536; }
static unsigned least(unsigned a, unsigned b) { return a < b ? a : b; }
static int is_large(void) { return W * H > 200; }

static void pin(unsigned x, unsigned y, unsigned w, unsigned h)
{
    ask(below(4) < hard_of_4 ? 6 : 3, 0, next_id(), w, h, x, y);
}

static void pin_somewhere(unsigned limit_w, unsigned limit_h)
{
    unsigned w = from_to(1, least(W, limit_w)), h = from_to(1, least(H, limit_h));
    unsigned x = below(W - w + 1), y = below(H - h + 1);
    pin(x, y, w, h);
}

/* A place by a rule works a list out; on large surfaces seldom. */
static void place_or_pin(unsigned limit_w, unsigned limit_h)
{
    if (one_in(is_large() ? 12 : 2)) {
        unsigned rule = below(3), w = from_to(1, least(W, limit_w)), h = from_to(1, least(H, limit_h));
        ask(1, rule, next_id(), w, h, 0, 0);
    } else {
        pin_somewhere(limit_w, limit_h);
    }
}

static void empty(void) { }

static void sparse(void)
{
    for (unsigned n = from_to(1, 6); n > 0; n--)
        place_or_pin(W / 3 + 1, H / 3 + 1);
}

static void dense(void)
{
    unsigned limit = from_to(1, is_large() ? 8 : 4);
    for (unsigned n = is_large() ? from_to(40, 300) : from_to(1, least(60, W * H)); n > 0; n--)
        place_or_pin(limit, limit);
}

/* Columns that rise or fall, standing on the bottom or hanging from the top. */
static void staircase(void)
{
    unsigned width = from_to(1, W / 3 + 1), step = from_to(1, 2), hanging = below(2), rising = below(2);
    for (unsigned x = 0; x + width <= W; x += width) {
        unsigned k = (rising ? x / width : (W - x) / width) * step;
        unsigned h = least(H, k % (H + 1));
        if (h != 0)
            pin(x, hanging ? 0 : H - h, width, h);
    }
}

/* As much of it as 256 slots hold. */
static void checkerboard(void)
{
    unsigned odd = below(2), left = W > 16 && H > 16 ? below(W - 15) : 0;
    unsigned right = W > 16 && H > 16 ? left + 16 : W;
    for (unsigned y = 0; y < H; y++)
        for (unsigned x = left; x < right; x++)
            if ((x + y + odd) % 2 == 0)
                pin(x, y, 1, 1);
}

static void thin(unsigned upright)
{
    unsigned across = upright ? W : H, along = upright ? H : W, gap = one_in(2) ? 8 : 1000;
    for (unsigned i = 0; i < across; i++) {
        unsigned len = from_to(1, along), at = below(along - len + 1);
        if (one_in(gap))
            continue;
        if (upright)
            pin(i, at, 1, len);
        else
            pin(at, i, len, 1);
    }
}

static void thin_upright(void) { thin(1); }
static void thin_lying(void) { thin(0); }

/* Rows of thin modules, the topmost in the lowest slot. */
static void top_first(void)
{
    unsigned step = from_to(1, 3), w = from_to(1, W), apart = w + below(3);
    for (unsigned y = below(2); y < H; y += step)
        for (unsigned x = below(2); x + w <= W; x += apart)
            pin(x, y, w, 1);
}

/* No cell empty: by one module, by rows, by columns. */
static void full(void)
{
    unsigned kind = below(3);
    if (kind == 0)
        pin(0, 0, W, H);
    for (unsigned y = 0; kind == 1 && y < H; y++)
        pin(0, y, W, 1);
    for (unsigned x = 0; kind == 2 && x < W; x++)
        pin(x, 0, 1, H);
}

/* 255 cells from the top left on, and one more in the last row: a table
 * without a free slot where there are cells enough. */
static void full_table(void)
{
    for (unsigned n = 0; n < 255 && n < W * H; n++)
        pin(n % W, n / W, 1, 1);
    pin(below(W), H - 1, 1, 1);
}

static void single_cells(void)
{
    for (unsigned n = from_to(1, least(300, W * H)); n > 0; n--)
        pin_somewhere(1, 1);
}

/* Modules also removed and exchanged, so that slots are used again; exchanged for
 * small ones, as beside the old module there is less room (order 3). */
static void mixed_history(void)
{
    for (unsigned n = from_to(4, is_large() ? 20 : 30); n > 0; n--) {
        unsigned old = (id_step * from_to(1, 8)) % 65536, rule = below(3);
        unsigned w = from_to(1, W / 4 + 1), h = from_to(1, H / 4 + 1), kind = below(5);
        if (kind == 0)
            ask(2, 0, old, 0, 0, 0, 0);
        else if (kind == 1)
            ask(4, rule, old, w, h, 0, 0);
        else
            place_or_pin(W / 2 + 1, H / 2 + 1);
    }
}

const char *const shape_names[SHAPES] = {
    "empty", "sparse", "dense", "staircase", "checkerboard", "thin upright", "thin lying",
    "top first", "full", "full table", "single cells", "mixed history", "any" };

static void (*const shapes[SHAPES - 1])(void) = {
    empty, sparse, dense, staircase, checkerboard, thin_upright, thin_lying,
    top_first, full, full_table, single_cells, mixed_history };

static void surface(struct call_case *c, unsigned shape, unsigned w, unsigned h)
{
    static const unsigned steps[] = { 1, 256, 257, 65535 }, hards[] = { 0, 1, 1, 2, 4 };
    if (shape == SHAPES - 1)
        shape = below(SHAPES - 1);
    W = w;
    H = h;
    last_id = 0;
    id_step = steps[below(4)];
    hard_of_4 = hards[below(5)];
    unsigned slots = one_in(2) ? from_to(1, 12) : from_to(12, 80);
    cleared(c, w, h, one_in(3) || shapes[shape] == full_table ? 256 : slots);
    shapes[shape]();
    run_asked(c);
}

void small_surface(struct call_case *c, unsigned shape)
{
    static const unsigned edge[][2] = { { 1, 1 }, { 1, 64 }, { 64, 1 }, { 2, 64 }, { 64, 2 } };
    unsigned k = below(30), limit = one_in(4) ? 14 : 7;
    unsigned w = from_to(1, limit), h = from_to(1, limit);
    surface(c, shape, k < 5 ? edge[k][0] : w, k < 5 ? edge[k][1] : h);
}

void large_surface(struct call_case *c, unsigned shape)
{
    static const unsigned edge[][2] = { { 64, 64 }, { 64, 63 }, { 63, 64 }, { 64, 16 }, { 16, 64 } };
    unsigned k = below(8), w = from_to(15, 64), h = from_to(15, 64);
    surface(c, shape, k < 5 ? edge[k][0] : w, k < 5 ? edge[k][1] : h);
}
