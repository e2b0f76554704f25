#include "calls.h"
#include "blocks.h"
#include "both.h"
#include "brute.h"
#include "numbers.h"
#include "surfaces.h"

#include <stdio.h>
#include <string.h>

/* ---- check and list ---------------------------------------------------------------- */

uint64_t listed_in(struct call_case *c, uint64_t room)
{
    struct bytes *b = &c->lent[ROOM];
    c->call = LIST;
    fill_any(b, room);
    b->null = room == 0 && one_in(2);
    return both(c);
}

unsigned long bounds_lent, bounds_filled;

unsigned listed_in_bound(struct call_case *c)
{
    const struct bytes *table = &c->lent[TABLE];
    unsigned W = (unsigned)c->w, H = (unsigned)c->h;
    unsigned bound = W * brute_scanned_rows(W, H, table->byte, table->len);
    unsigned entries = part_of(listed_in(c, 8 * bound), 1);
    bounds_lent++;
    bounds_filled += entries == bound;
    if (part_of(library_gave(), 0) != 0) {
        printf("host: room for W entries for each scanned row: code %u, case %lu\n",
               part_of(library_gave(), 0), cases);
        differ++;
    }
    return entries;
}

/* "shorter than 8 bytes for each entry": exactly enough, one byte short, some
 * short, longer by odd and even amounts, none; and the bound. A surface that does
 * not stand has no entries to be short of. */
uint64_t checked_and_listed(struct call_case *c)
{
    c->call = CHECK;
    uint64_t r = both(c);
    unsigned need = part_of(r, 0) == 0 ? 8 * listed_in_bound(c) : 0;
    listed_in(c, need);
    listed_in(c, need + (one_in(2) ? from_to(1, 16) : one_in(2) ? 1 : 3) % (CAP - need));
    if (need > 0)
        listed_in(c, need - 1);
    if (need > 8 && one_in(2))
        listed_in(c, need - 8);
    if (need > 0 && one_in(2))
        listed_in(c, below(need));
    if (one_in(3))
        listed_in(c, 0);
    return r;
}

void cleared_over(struct call_case *c)
{
    c->call = CLEAR;
    if (one_in(3))
        fill_any(&c->lent[WEIGHTS], c->lent[WEIGHTS].len);
    if (one_in(3))
        fill_any(&c->lent[TABLE], c->lent[TABLE].len);
    both(c);
}

/* ---- garbage -------------------------------------------------------------------------- */

static int odd_weight(void)
{
    static const int odd[] = { 0, 1, -1, 2, -2, 3, 63, 64, 65, -64, -65, 255, 256, -256, 32767, -32768 };
    return odd[below(16)];
}

/* Byte k of a slot that may mean something: a kind 0, 1 or now and then 2, and behind
 * it mostly 0. */
static unsigned small_byte(unsigned k)
{
    if (k == 6)
        return below(41) / 20;
    if (k == 7)
        return below(21) / 20;
    return k == 1 ? 0 : below(5);
}

static void small_table(struct call_case *c)
{
    for (uint64_t i = 0; i < c->lent[TABLE].len; i++)
        c->lent[TABLE].byte[i] = (uint8_t)small_byte((unsigned)(i % 8));
}

static void small_weights(struct call_case *c)
{
    unsigned one_value = one_in(4);
    int weight = odd_weight();
    for (unsigned y = 0; y < c->h; y++)
        for (unsigned x = 0; x < c->w; x++)
            put_weight(c, x, y, one_value ? weight : one_in(2) ? odd_weight() : (int)y + 1);
}

void garbage(struct call_case *c)
{
    small_surface(c, SHAPES - 1);
    switch (below(5)) {
    case 0: fill_any(&c->lent[WEIGHTS], c->lent[WEIGHTS].len); break;
    case 1: fill_any(&c->lent[TABLE], c->lent[TABLE].len); break;
    case 2: small_weights(c); break;
    case 3: small_table(c); paint(c, one_in(2)); break;
    default: small_table(c); small_weights(c); break;
    }
    checked_and_listed(c);
}

/* ---- edges ------------------------------------------------------------------------------ */

static const uint64_t sides[] = {
    0, 1, 2, 3, 32, 63, 64, 65, 66, 127, 128, 129, 255, 256, 257, 320, 65536, 65537,
    (uint64_t)1 << 32, ((uint64_t)1 << 32) + 1, (uint64_t)1 << 63, ((uint64_t)1 << 63) + 1,
    UINT64_MAX - 63, UINT64_MAX - 1, UINT64_MAX };
static const uint64_t table_lengths[] = {
    0, 1, 7, 8, 9, 15, 16, 2040, 2041, 2047, 2048, 2049, 2055, 2056, 2057, 2064, 4096 };
static const int weights_off[] = { 0, 0, 0, -1, 1, -2, 2, -3, 3, -8, 8 };

enum {
    SIDES = sizeof sides / sizeof sides[0],
    TABLE_LENGTHS = sizeof table_lengths / sizeof table_lengths[0],
    WEIGHTS_OFF = sizeof weights_off / sizeof weights_off[0]
};

/* The bytes that the weights would take, where so many can be lent. The
 * product wraps: 2^63 columns and 2 rows would take none. */
static uint64_t weights_length(uint64_t w, uint64_t h, int off)
{
    uint64_t n = 2 * w * h;
    if (off == 8 && w <= 64 && h <= 64)
        return w * h;
    if (off < 0 && n < (uint64_t)-off)
        return 0;
    n += (uint64_t)off;
    return n <= CAP ? n : 2 * (w & 63) * (h & 63);
}

/* A cleared surface where there is one, and any bytes elsewhere. */
static void edge_buffers(struct call_case *c, uint64_t weights_len, uint64_t table_len)
{
    struct bytes *weights = &c->lent[WEIGHTS], *table = &c->lent[TABLE];
    fill_any(weights, weights_len);
    fill_any(table, table_len);
    memset(table->byte, 0, table_len);
    for (uint64_t i = 0; c->w != 0 && i + 1 < weights_len; i += 2) {
        weights->byte[i] = (uint8_t)(i / 2 / c->w + 1);
        weights->byte[i + 1] = 0;
    }
    weights->null = weights_len == 0 && one_in(2);
    table->null = table_len == 0 && one_in(2);
}

/* The calls with these sizes and lengths. */
static void edge(struct call_case *c, uint64_t w, uint64_t h, uint64_t weights_len, uint64_t table_len)
{
    static const uint64_t rooms[] = { 0, 7, 8, 9 };
    c->w = w;
    c->h = h;
    edge_buffers(c, weights_len, table_len);
    c->call = CHECK;
    both(c);
    listed_in(c, rooms[below(4)]);
    fixed_block(c);
    cleared_over(c);
}

void edge_sides(struct call_case *c)
{
    for (unsigned i = 0; i < SIDES; i++)
        for (unsigned j = 0; j < SIDES; j++)
            edge(c, sides[i], sides[j], weights_length(sides[i], sides[j], 0), 8);
}

void edge_lengths(struct call_case *c, uint64_t w, uint64_t h)
{
    for (unsigned i = 0; i < WEIGHTS_OFF; i++)
        for (unsigned j = 0; j < TABLE_LENGTHS; j++)
            edge(c, w, h, weights_length(w, h, weights_off[i]), table_lengths[j]);
}

static uint64_t some_table_length(void)
{
    if (one_in(3))
        return 8 * from_to(1, 256);
    return one_in(2) ? from_to(0, 2100) : table_lengths[below(TABLE_LENGTHS)];
}

void some_edge(struct call_case *c)
{
    uint64_t w = one_in(2) ? from_to(1, 64) : sides[below(SIDES)];
    uint64_t h = one_in(2) ? from_to(1, 9) : sides[below(SIDES)];
    uint64_t t = some_table_length();
    edge(c, w, h, weights_length(w, h, weights_off[below(WEIGHTS_OFF)]), t);
}
