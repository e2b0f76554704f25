/* A seeded generator: request streams for the program, and small cases of the
 * four calls with the brute force's outcome. The same seed gives the same
 * output on every machine.
 *
 *   generate stream KIND SEED N     N request records, binary
 *   generate exchanges KIND SEED N  how the exchanges among them are answered; exit
 *                                   status 1 where some sort never comes up, or
 *                                   fewer than a quarter are accepted
 *   generate cases SEED N           N call cases, one a line
 *   generate coverage SEED N        how often those cases give each code, and how
 *                                   their exchanges are answered; exit status 1
 *                                   where one never comes up, or a code is amiss
 */
#include "../exchanges.h"
#include "brute.h"

#include <stdio.h>
#include <stdlib.h>
#include <string.h>

/* ---- numbers ----------------------------------------------------------- */

static uint64_t state;

/* splitmix64 */
static uint64_t next(void)
{
    uint64_t z = state += 0x9e3779b97f4a7c15u;
    z = (z ^ (z >> 30)) * 0xbf58476d1ce4e5b9u;
    z = (z ^ (z >> 27)) * 0x94d049bb133111ebu;
    return z ^ (z >> 31);
}

static unsigned below(unsigned n) { return (unsigned)(next() % n); }
static int one_in(unsigned n) { return below(n) == 0; }
static unsigned from_to(unsigned a, unsigned b) { return a + below(b - a + 1); }
static uint8_t any_byte(void) { return (uint8_t)below(256); }

/* ======================= streams ========================================= */

/* No expression draws twice where C leaves the order open: each draw has its
 * own declarator or statement, so every compiler gives the same output. */

static unsigned long wanted, given;
static unsigned side_w, side_h;         /* of the last sound clear */

static int open_stream(void) { return given < wanted; }

static void print_record(const uint8_t r[8])
{
    for (unsigned i = 0; i < 8; i++)
        putchar(r[i]);
}

static void (*take_record)(const uint8_t r[8]) = print_record;

static void put(unsigned op, unsigned rule, unsigned id, unsigned w, unsigned h,
                unsigned b6, unsigned b7)
{
    unsigned q[8] = { op, rule, id & 255, id >> 8 & 255, w, h, b6, b7 };
    uint8_t r[8];
    if (!open_stream())
        return;
    for (unsigned i = 0; i < 8; i++)
        r[i] = (uint8_t)(q[i] & 255);
    take_record(r);
    given++;
}

static void put_clear(unsigned w, unsigned h)
{
    side_w = w;
    side_h = h;
    put(5, 0, 0, w, h, 0, 0);
}

static void put_place(unsigned id, unsigned w, unsigned h, unsigned rule)
{ put(1, rule, id, w, h, 0, 0); }
static void put_remove(unsigned id) { put(2, 0, id, 0, 0, 0, 0); }
static void put_pin(unsigned id, unsigned w, unsigned h, unsigned x, unsigned y)
{ put(3, 0, id, w, h, x, y); }
static void put_exchange(unsigned id, unsigned w, unsigned h, unsigned rule)
{ put(4, rule, id, w, h, 0, 0); }
static void put_set(unsigned id, unsigned w, unsigned h, unsigned x, unsigned y)
{ put(6, 0, id, w, h, x, y); }

/* A pin, and now and then a set. */
static void put_pin_or_set(unsigned id, unsigned w, unsigned h, unsigned x, unsigned y)
{ put(one_in(10) ? 6 : 3, 0, id, w, h, x, y); }

/* A clear with both sides in this range. */
static void clear_between(unsigned least, unsigned most)
{
    unsigned w = from_to(least, most), h = from_to(least, most);
    put_clear(w, h);
}

/* A clear that may be refused; the sides are remembered when it is not. */
static void any_clear(unsigned most)
{
    unsigned w = below(most + 1), h = below(most + 1);
    if (w >= 1 && w <= 64 && h >= 1 && h <= 64)
        put_clear(w, h);
    else
        put(5, 0, 0, w, h, 0, 0);
}

/* A record of any eight bytes, the operation below this. */
static void put_any(unsigned operations)
{
    unsigned op = below(operations), b[5];
    for (unsigned i = 0; i < 5; i++)
        b[i] = below(256);
    unsigned id = below(65536);
    put(op, b[0], id, b[1], b[2], b[3], b[4]);
}

/* A record of bytes that are small enough to mean something. */
static void put_small_any(unsigned ids, unsigned limit_w, unsigned limit_h)
{
    unsigned op = below(8), rule = below(4), id = below(ids + 1);
    unsigned w = below(limit_w + 2), h = below(limit_h + 2);
    unsigned b6 = one_in(2) ? below(limit_w + 1) : 0;
    unsigned b7 = one_in(2) ? below(limit_h + 1) : 0;
    put(op == 5 ? 1 : op, rule, id, w, h, b6, b7);
}

/* A side up to this limit, small ones more often. */
static unsigned side(unsigned limit)
{
    unsigned n = limit < 1 ? 1 : limit;
    return one_in(3) ? from_to(1, n) : from_to(1, n / 3 + 1);
}

/* A pin, or a set, that lies on the surface. */
static void put_on(unsigned op, unsigned id, unsigned w, unsigned h)
{
    w = w > side_w ? side_w : w;
    h = h > side_h ? side_h : h;
    unsigned x = below(side_w - w + 1), y = below(side_h - h + 1);
    put(op, 0, id, w, h, x, y);
}

static void put_pin_on(unsigned id, unsigned w, unsigned h) { put_on(3, id, w, h); }
static void put_set_on(unsigned id, unsigned w, unsigned h) { put_on(6, id, w, h); }

/* Mostly a clear comes first; now and then something before it. */
static void before_the_clear(void)
{
    if (!one_in(6))
        return;
    put_place(3, 1, 1, 0);
    put_set(3, 1, 1, 0, 0);
    put_any(8);
    put(5, one_in(2) ? 1 : 0, 0, 4, 4, 0, 0);
    put(5, 0, 0, one_in(2) ? 0 : 65, 3, 0, 0);
}

static void clear_of_many_sizes(void)
{
    static const unsigned edge[][2] = { { 1, 1 }, { 1, 64 }, { 64, 1 }, { 64, 64 },
                                        { 63, 64 }, { 2, 2 } };
    unsigned k = below(12);
    if (k < 6)
        put_clear(edge[k][0], edge[k][1]);
    else if (k < 9)
        clear_between(1, 8);
    else if (k < 11)
        clear_between(2, 24);
    else
        clear_between(1, 64);
}

/* Which ids were asked for and not taken away since. */
static uint8_t asked[1024];

static void forget_asked(void) { memset(asked, 0, sizeof asked); }

/* An exchange: beside the old module there is less room than on the surface, so half
 * of them are for half the size; and some for one larger both ways. */
static void put_exchange_load(unsigned id, unsigned w, unsigned h, unsigned rule)
{
    unsigned part = from_to(1, 2), more = one_in(4) ? 1 : 0;
    put_exchange(id, (w + part - 1) / part + more, (h + part - 1) / part + more, rule);
}

/* One mostly sound request under ids 1..ids. */
static void put_load(unsigned ids, unsigned limit_w, unsigned limit_h, unsigned removes)
{
    unsigned id = from_to(1, ids), rule = below(3);
    unsigned w = side(limit_w), h = side(limit_h);
    if (one_in(40)) {
        put_small_any(ids, limit_w, limit_h);
    } else if (!asked[id]) {
        asked[id] = 1;
        if (one_in(3))
            put_pin_on(id, w, h);
        else if (one_in(10))
            put_set_on(id, w, h);
        else
            put_place(id, w, h, rule);
    } else if (below(100) < removes) {
        asked[id] = 0;
        put_remove(id);
    } else if (one_in(2)) {
        put_exchange_load(id, w, h, rule);
    } else {
        put_place(id, w, h, rule);
    }
}

static void refused_clear(void)
{
    unsigned w = from_to(60, 70), h = from_to(65, 70), spare = below(2);
    put(5, 0, 0, w, h, 0, spare);
}

static void stream_sound(void)
{
    before_the_clear();
    while (open_stream()) {
        clear_of_many_sizes();
        forget_asked();
        unsigned ids = one_in(2) ? 12 : 60;
        for (unsigned n = from_to(5, 60); n > 0 && open_stream(); n--) {
            put_load(ids, side_w, side_h, 40);
            if (one_in(50))
                refused_clear();
        }
    }
}

static void stream_random(void)
{
    if (!one_in(5))
        clear_between(1, 64);
    while (open_stream()) {
        if (one_in(12))
            any_clear(66);
        else if (one_in(3))
            put_any(256);
        else if (one_in(2))
            put_small_any(6, 66, 66);
        else
            put_load(8, side_w + 1, side_h + 1, 30);
    }
}

/* The next surface, while there is room in the stream: cleared, and nothing asked
 * for on it yet. */
static int open_surface(unsigned least, unsigned most)
{
    if (!open_stream())
        return 0;
    clear_between(least, most);
    forget_asked();
    return 1;
}

static void stream_dense(void)
{
    before_the_clear();
    while (open_surface(6, 32)) {
        unsigned limit = from_to(1, 5);
        for (unsigned n = side_w * side_h; n > 0 && open_stream(); n--)
            put_load(300, limit, limit, 15);
    }
}

static void stream_sparse(void)
{
    before_the_clear();
    while (open_surface(20, 64)) {
        for (unsigned n = from_to(20, 80); n > 0 && open_stream(); n--)
            put_load(6, 8, 8, 60);
    }
}

/* "a module exchanged for a larger one under its own id, refused, asked again,
 * then removed, in any mixture with the rest" */
static void exchange_step(unsigned ids, unsigned id, unsigned w, unsigned h)
{
    unsigned rule = below(3), again = below(3);
    unsigned too_w = side_w + below(2), too_h = side_h + below(2);
    put_exchange(id, w, h, rule);
    if (one_in(2))
        put_exchange(id, too_w, too_h, rule);
    if (one_in(2))
        put_exchange(id, w, h, again);
    if (one_in(3))
        put_load(ids, side_w / 2 + 1, side_h / 2 + 1, 30);
}

static void exchange_history(unsigned ids)
{
    unsigned id = from_to(1, ids), rule = below(3);
    unsigned w = side(side_w / 2), h = side(side_h / 2);
    if (one_in(2))
        put_place(id, w, h, rule);
    else
        put_pin_on(id, w, h);
    for (unsigned n = from_to(1, 6); n > 0; n--) {
        w += below(3);
        h += below(3);
        exchange_step(ids, id, w, h);
    }
    if (one_in(3))
        put_exchange(id, 1, 2, rule);
    if (!one_in(3))
        put_remove(id);
    if (one_in(4))
        put_exchange(id, 1, 1, rule);
}

/* "the new one may not cover a single old cell" (order 3): on a surface just cleared,
 * with a module in its left or lower part, one is asked for that fills the rest, or
 * has one column or row too many; and between them the first size again. */
static void exchange_across(unsigned id)
{
    unsigned lying = below(2), rule = below(3);
    unsigned w = lying ? side_w : from_to(1, side_w), h = lying ? from_to(1, side_h) : side_h;
    put_place(id, w, h, rule);
    for (unsigned n = from_to(2, 4); n > 0; n--) {
        unsigned more = one_in(3) ? 1 : 0, again = below(3);
        put_exchange(id, lying ? w : side_w - w + more, lying ? side_h - h + more : h, again);
        if (one_in(2))
            put_exchange(id, w, h, again);
    }
    put_remove(id);
}

static void stream_exchange(void)
{
    before_the_clear();
    while (open_surface(1, 16)) {
        exchange_across(5);
        for (unsigned n = from_to(3, 12); n > 0 && open_stream(); n--)
            exchange_history(4);
    }
}

/* "full tables: more than 256 modules" */
static void at_full_table(void)
{
    unsigned id = 1000 + below(300), other = 1000 + below(300);
    unsigned late = 2000 + below(50), rule = below(3), w = from_to(1, 3);
    unsigned x = below(side_w), y = below(side_h);
    switch (below(10)) {
    case 0: put_place(late, 1, 1, rule); break;
    case 1: put_pin(late, 1, 1, x, y); break;
    case 2: put_pin(late, 1, 1, side_w, y); break;
    case 3: put_exchange(id, w, 1, rule); break;
    case 4: put_remove(id); put_place(id, 1, 1, rule); break;
    case 5: put_remove(id); put_remove(other); put_pin(late, 1, 1, x, y); break;
    case 6: put_place(late, 200, 1, rule); break;
    case 7: put_set(late, 1, 1, x, y); break;
    case 8: put_set(late, 1, 1, side_w, y); break;
    default: put_place(id, 1, 1, rule); break;
    }
}

static void fill_table(void)
{
    unsigned step = from_to(1, 3);
    for (unsigned i = 0; i < 265; i++) {
        unsigned at = i * step % (side_w * side_h), rule = below(3);
        if (one_in(20))
            put_place(1000 + i, 1, 1, rule);
        else
            put_pin_or_set(1000 + i, 1, 1, at % side_w, at / side_w);
    }
}

static void stream_full(void)
{
    before_the_clear();
    while (open_stream()) {
        clear_between(20, 64);
        fill_table();
        for (unsigned n = from_to(20, 60); n > 0; n--)
            at_full_table();
    }
}

/* Any bytes; the length need not be a multiple of 8. */
static void stream_garbage(void)
{
    if (!one_in(4))
        clear_between(1, 20);
    while (open_stream())
        if (one_in(20))
            any_clear(255);
        else
            put_any(256);
    for (unsigned n = below(8); n > 0; n--)
        putchar(any_byte());
}

/* Sound, then cut in the middle of a record. */
static void stream_cut(void)
{
    if (wanted > 0)
        wanted--;
    stream_sound();
    for (unsigned n = from_to(1, 7); n > 0; n--)
        putchar((int)n);
}

/* Thin modules side by side, upright or lying; the next id. */
static unsigned thin_row(unsigned upright)
{
    unsigned across = upright ? side_w : side_h, along = upright ? side_h : side_w;
    unsigned id = 1;
    for (unsigned i = 0; i < across; i++) {
        unsigned len = from_to(1, along), at = one_in(2) ? 0 : along - len;
        if (one_in(8))
            continue;
        if (upright)
            put_pin_or_set(id++, 1, len, i, at);
        else
            put_pin_or_set(id++, len, 1, at, i);
    }
    return id;
}

static void stream_thin(void)
{
    before_the_clear();
    while (open_stream()) {
        clear_between(4, 40);
        unsigned end = thin_row(below(2));
        for (unsigned n = from_to(5, 30); n > 0; n--) {
            unsigned id = from_to(1, end), late = end + below(4), rule = below(3);
            unsigned w = one_in(2) ? 1 : from_to(1, side_w);
            unsigned h = w == 1 ? from_to(1, side_h) : 1;
            if (one_in(3))
                put_remove(id);
            else if (one_in(2))
                put_exchange(id, w, h, rule);
            else
                put_place(late, w, h, rule);
        }
    }
}

/* A checkerboard by pins; the next id. */
static unsigned checkerboard(unsigned odd)
{
    unsigned id = 1;
    for (unsigned y = 0; y < side_h; y++)
        for (unsigned x = 0; x < side_w; x++)
            if ((x + y + odd) % 2 == 0)
                put_pin_or_set(id++, 1, 1, x, y);
    return id;
}

/* 256 slots hold the checkerboard of up to 512 cells. */
static void checker_clear(void)
{
    if (one_in(12))
        put_clear(64, 8);
    else if (one_in(12))
        put_clear(8, 64);
    else
        clear_between(1, 22);
}

static void stream_checker(void)
{
    before_the_clear();
    while (open_stream()) {
        checker_clear();
        unsigned end = checkerboard(below(2));
        put_place(600, 2, 1, 0);
        put_place(600, 1, 2, 1);
        for (unsigned n = from_to(3, 25); n > 0; n--) {
            unsigned id = from_to(1, end), late = 600 + below(20), rule = below(3);
            unsigned w = from_to(1, 3), h = from_to(1, 3);
            if (one_in(3))
                put_remove(id);
            else if (one_in(2))
                put_place(late, w, h, rule);
            else
                put_exchange(id, w, h, rule);
        }
    }
}

/* A request under the id of a block. */
static void at_hard(unsigned id)
{
    unsigned w = below(4), h = below(4), rule = below(3);
    switch (below(5)) {
    case 0: put_place(id, w, h, rule); break;
    case 1: put_remove(id); break;
    case 2: put_pin_on(id, w, h); break;
    case 3: put_exchange(id, w, h, rule); break;
    default: put_set_on(id, w, h); break;
    }
}

/* "Processor and memory blocks in the fabric" (order 2): set before the modules,
 * asked away in vain among them, removed by the next clear. */
static void stream_hard(void)
{
    before_the_clear();
    while (open_surface(2, one_in(2) ? 8 : 24)) {
        unsigned hards = from_to(1, 8);
        for (unsigned id = 1; id <= hards; id++) {
            unsigned w = side(side_w / 2), h = side(side_h / 2);
            put_set_on(id, w, h);
        }
        for (unsigned n = from_to(10, 50); n > 0 && open_stream(); n--)
            if (one_in(4))
                at_hard(from_to(1, hards));
            else
                put_load(20, side_w / 2, side_h / 2, 40);
    }
}

static const struct { const char *name; void (*make)(void); } kinds[] = {
    { "random", stream_random }, { "sound", stream_sound },
    { "dense", stream_dense }, { "sparse", stream_sparse },
    { "exchange", stream_exchange }, { "full", stream_full },
    { "garbage", stream_garbage }, { "cut", stream_cut },
    { "thin", stream_thin }, { "checker", stream_checker },
    { "hard", stream_hard }
};

static int make_stream(const char *kind)
{
    side_w = side_h = 1;
    for (unsigned i = 0; i < sizeof kinds / sizeof kinds[0]; i++)
        if (strcmp(kinds[i].name, kind) == 0) {
            kinds[i].make();
            return 0;
        }
    fprintf(stderr, "generate: no such kind\n");
    return 2;
}

/* ---- the exchanges of a stream --------------------------------------------- */

static struct exchanges counted;

/* The program's surface, and a copy of it as it was before a record. */
static uint8_t stream_weights[2 * 64 * 64], stream_table[8 * 256];
static uint8_t weights_before[sizeof stream_weights], table_before[sizeof stream_table];
static uint64_t stream_w, stream_h;

/* "operation 5, clear: W and H in bytes 4 and 5, the rest zero" */
static void clear_stream(const uint8_t r[8])
{
    uint64_t w = r[4], h = r[5];
    if (r[1] != 0 || r[2] != 0 || r[3] != 0 || r[6] != 0 || r[7] != 0)
        return;
    if (brute_clear(w, h, stream_weights, 2 * w * h, stream_table, sizeof stream_table) != 0)
        return;
    stream_w = w;
    stream_h = h;
}

static void count_request(const uint8_t r[8])
{
    uint64_t weights_len = 2 * stream_w * stream_h;
    struct loans before = { .w = stream_w, .h = stream_h,
                            .at = { [WEIGHTS] = weights_before, [TABLE] = table_before },
                            .len = { [WEIGHTS] = weights_len, [TABLE] = sizeof table_before } };
    uint8_t answer[8];
    memcpy(weights_before, stream_weights, sizeof stream_weights);
    memcpy(table_before, stream_table, sizeof stream_table);
    brute_run(stream_w, stream_h, stream_weights, weights_len, stream_table, sizeof stream_table,
              r, 8, answer, 8);
    count_exchange(&counted, &before, r, answer);
}

static void count_record(const uint8_t r[8])
{
    if (r[0] == 5)
        clear_stream(r);
    else if (stream_w != 0)
        count_request(r);
}

static int count_stream(const char *kind)
{
    take_record = count_record;
    if (make_stream(kind) != 0)
        return 2;
    print_exchanges(&counted);
    return exchanges_came_up(&counted) && 3 * counted.accepted >= counted.refused ? 0 : 1;
}

/* ======================= cases =========================================== */

enum { AREA = 12, CAP = 512 };

struct lent { uint64_t len; uint8_t byte[CAP]; };

struct call_case {
    unsigned call;
    uint64_t w, h;
    struct lent weights, table, requests, answers, room;
};

static void fill_any(struct lent *l, uint64_t len)
{
    l->len = len;
    for (uint64_t i = 0; i < len; i++)
        l->byte[i] = any_byte();
}

/* ---- standing surfaces --------------------------------------------------- */

/* "mostly 1..4 (area at most 12)" */
static void pick_size(struct call_case *c)
{
    do {
        unsigned limit = one_in(8) ? 12 : 4;
        c->w = from_to(1, limit);
        c->h = from_to(1, limit);
    } while (c->w * c->h > AREA);
}

/* 0..4, mostly 1 and 2. */
static uint8_t draw_side(void)
{
    static const uint8_t sides[12] = { 0, 1, 1, 1, 1, 1, 2, 2, 2, 3, 3, 4 };
    return one_in(50) ? any_byte() : sides[below(12)];
}

/* Zero where it must be, now and then not. */
static uint8_t draw_zero(void)
{
    return one_in(20) ? (uint8_t)below(4) : 0;
}

/* A coordinate, now and then far off. */
static uint8_t draw_coordinate(void)
{
    return one_in(20) ? any_byte() : (uint8_t)below(4);
}

/* A request with this operation, its bytes mostly as they must be. "New operation
 * 6 takes the fields of a pin" (order 2). */
static void draw_request(uint8_t *q, unsigned op)
{
    int at_place = op == 3 || op == 6;
    q[0] = (uint8_t)op;
    q[1] = draw_zero();
    if (op == 1 || op == 4)
        q[1] = (uint8_t)(one_in(12) ? 3 : below(3));
    q[2] = (uint8_t)(one_in(12) ? 0 : from_to(1, 5));
    q[3] = (uint8_t)(one_in(12) ? from_to(1, 2) : 0);
    q[4] = op == 2 ? draw_zero() : draw_side();
    q[5] = op == 2 ? draw_zero() : draw_side();
    q[6] = at_place ? draw_coordinate() : draw_zero();
    q[7] = at_place ? draw_coordinate() : draw_zero();
}

/* One of the operations that there are. */
static unsigned draw_operation(void)
{
    static const uint8_t operations[] = { 1, 2, 3, 4, 6 };
    return operations[below(5)];
}

static void draw_any_request(uint8_t *q)
{
    draw_request(q, one_in(10) ? below(8) : draw_operation());
}

/* Mostly one that would add a module or a block. */
static void draw_adding_request(uint8_t *q)
{
    static const uint8_t adding[] = { 1, 1, 3, 3, 6 };
    if (one_in(4))
        draw_any_request(q);
    else
        draw_request(q, adding[below(5)]);
}

static uint64_t run_on(struct call_case *c, const uint8_t *q, uint64_t len, uint8_t *a)
{
    return brute_run(c->w, c->h, c->weights.byte, c->weights.len,
                     c->table.byte, c->table.len, q, len, a, len);
}

/* A block of the fabric, where one of twenty drawn can be set. */
static void set_one(struct call_case *c)
{
    uint8_t q[8], a[8] = { 1 };
    for (unsigned tries = 0; tries < 20 && a[0] != 0; tries++) {
        draw_request(q, 6);
        run_on(c, q, 8, a);
    }
}

/* Reached through clear and run from random requests. */
static void standing(struct call_case *c)
{
    uint8_t q[8], a[8];
    pick_size(c);
    c->weights.len = 2 * c->w * c->h;
    c->table.len = 8 * from_to(1, 4);
    brute_clear(c->w, c->h, c->weights.byte, c->weights.len, c->table.byte, c->table.len);
    if (one_in(3))
        set_one(c);
    for (unsigned n = below(10); n > 0; n--) {
        draw_adding_request(q);
        run_on(c, q, 8, a);
    }
}

static struct loans loans_of(struct call_case *c)
{
    struct lent *lent[BUFFERS] = { &c->weights, &c->table, &c->requests, &c->answers, &c->room };
    struct loans l = { .w = c->w, .h = c->h };
    for (unsigned i = 0; i < BUFFERS; i++) {
        l.at[i] = lent[i]->byte;
        l.len[i] = lent[i]->len;
    }
    return l;
}

static void draw_block(struct call_case *c, unsigned n)
{
    c->requests.len = 8 * n;
    for (unsigned i = 0; i < n; i++)
        draw_any_request(c->requests.byte + 8 * i);
    fill_any(&c->answers, 8 * n);
}

static uint64_t check_of(const struct call_case *c)
{
    return brute_check(c->w, c->h, c->weights.byte, c->weights.len,
                       c->table.byte, c->table.len);
}

/* How many entries the list has: listed into room enough. */
static unsigned entries_of(const struct call_case *c)
{
    uint8_t room[8 * 64];
    return (unsigned)(brute_list(c->w, c->h, c->weights.byte, c->weights.len,
                                 c->table.byte, c->table.len, room, sizeof room)
                      >> 16 & 0xffff);
}

/* A slot that is used, or free; NULL when there is none. */
static uint8_t *some_slot(struct call_case *c, int used)
{
    unsigned n = (unsigned)(c->table.len / 8), start = below(n);
    for (unsigned k = 0; k < n; k++) {
        uint8_t *s = c->table.byte + 8 * ((start + k) % n);
        int is_used = s[0] != 0 || s[1] != 0;
        if (is_used == used)
            return s;
    }
    return NULL;
}

/* ---- aims of a run: each operation with each code it can have ------------ */

/* How the aim is meant. FLAT has a w of 0, as 23 comes before 17, and OF_HARD the
 * id of a block, as 12 and 13 come before 23. Of an exchange (order 3): BESIDE is
 * accepted beside the old module, ELSEWHERE elsewhere than without it; FOR_OLD is
 * refused for it, and ANYWAY without it too; SAME_SIZE has the old module's size,
 * and FULL no free slot. */
enum { PLAIN, FLAT, OF_HARD, BESIDE, ELSEWHERE, FOR_OLD, ANYWAY, SAME_SIZE, FULL };
struct aim { uint8_t op, code, how; };

static const struct aim aims[] = {
    { 1, 0, 0 }, { 3, 0, 0 }, { 6, 0, 0 }, { 4, 0, BESIDE }, { 4, 20, FOR_OLD }, { 2, 0, 0 },
    { 4, 0, ELSEWHERE }, { 4, 20, SAME_SIZE }, { 4, 0, SAME_SIZE }, { 4, 0, FULL }, { 1, 20, 0 },
    { 3, 21, 0 }, { 6, 21, 0 }, { 4, 20, ANYWAY }, { 1, 19, 0 }, { 3, 19, 0 }, { 6, 19, 0 },
    { 3, 18, 0 }, { 6, 18, 0 },
    { 1, 17, 0 }, { 3, 17, 0 }, { 6, 17, 0 }, { 4, 17, 0 }, { 2, 23, 0 }, { 4, 23, 0 },
    { 4, 23, FLAT }, { 2, 16, 0 }, { 4, 16, 0 }, { 1, 15, 0 }, { 3, 15, 0 }, { 6, 15, 0 },
    { 1, 14, 0 }, { 2, 14, 0 }, { 3, 14, 0 }, { 6, 14, 0 }, { 4, 14, 0 }, { 1, 13, 0 },
    { 4, 13, 0 }, { 1, 12, 0 }, { 2, 12, 0 }, { 3, 12, 0 }, { 6, 12, 0 }, { 4, 12, 0 },
    { 0, 11, 0 }, { 5, 11, 0 }, { 7, 11, 0 }, { 2, 12, OF_HARD }, { 4, 13, OF_HARD }
};
enum { AIMS = sizeof aims / sizeof aims[0] };

/* The first used slot of this kind, or NULL. */
static const uint8_t *first_of_kind(const struct call_case *c, unsigned kind)
{
    for (uint64_t i = 0; i < c->table.len; i += 8)
        if (c->table.byte[i + 6] == kind && (c->table.byte[i] != 0 || c->table.byte[i + 1] != 0))
            return c->table.byte + i;
    return NULL;
}

static const uint8_t *first_hard(const struct call_case *c) { return first_of_kind(c, 1); }

/* The request made to what the aim means, where the surface has it. */
static void mean(const struct call_case *c, unsigned how, uint8_t *q)
{
    const uint8_t *slot = first_of_kind(c, how == OF_HARD ? 1 : 0);
    if (how == FLAT)
        q[4] = 0;
    if ((how == OF_HARD || how == SAME_SIZE) && slot != NULL)
        memcpy(q + 2, slot, 2);
    if (how == SAME_SIZE && slot != NULL)
        memcpy(q + 4, slot + 4, 2);
}

/* Whether the answer is as the aim means; c is the surface before it. */
static int is_meant(struct call_case *c, unsigned how, const uint8_t *q, const uint8_t *a)
{
    struct exchanges n = { 0 };
    struct loans l = loans_of(c);
    count_exchange(&n, &l, q, a);
    switch (how) {
    case OF_HARD: return first_hard(c) != NULL;
    case BESIDE: return n.beside != 0;
    case ELSEWHERE: return n.elsewhere != 0;
    case FOR_OLD: return n.for_the_old != 0;
    case ANYWAY: return n.for_the_old == 0;
    case FULL: return some_slot(c, 0) == NULL;
    default: return 1;
    }
}

/* A request that has the aim's code on this surface. */
static int aim_request(struct call_case *c, struct aim aim, uint8_t *q)
{
    uint8_t a[8];
    for (unsigned tries = 0; tries < 60; tries++) {
        struct call_case copy = *c;
        draw_request(q, aim.op);
        mean(c, aim.how, q);
        run_on(&copy, q, 8, a);
        if (a[0] == aim.code && is_meant(c, aim.how, q, a))
            return 1;
    }
    return 0;
}

/* An aim for another request of the block: to be accepted, exchanges more often, or
 * an exchange to be refused for the old module. */
static struct aim other_aim(void)
{
    if (one_in(4))
        return (struct aim){ 4, 20, FOR_OLD };
    return (struct aim){ (uint8_t)(one_in(3) ? 4 : draw_operation()), 0, PLAIN };
}

/* A block of 1..5 requests, one of them aimed, on the surface before it; of the
 * others every second one has an aim too, where it can be met. */
static int aim_block(struct call_case *c, unsigned aim)
{
    unsigned n = from_to(1, 5), mark = below(n);
    uint8_t a[8];
    struct call_case now = *c;
    draw_block(c, n);
    for (unsigned i = 0; i < n; i++) {
        uint8_t *q = c->requests.byte + 8 * i;
        if (i == mark && !aim_request(&now, aims[aim], q))
            return 0;
        if (i != mark && one_in(2))
            aim_request(&now, other_aim(), q);
        run_on(&now, q, 8, a);
    }
    return 1;
}

static void aimed_run(struct call_case *c, unsigned aim)
{
    for (unsigned tries = 0; tries < 500; tries++) {
        standing(c);
        if (aim_block(c, aim))
            return;
    }
}

/* ---- faults -------------------------------------------------------------- */

static void fault_size(struct call_case *c)
{
    static const uint64_t bad[] = {
        0, 65, UINT64_MAX, (uint64_t)1 << 63, (uint64_t)1 << 32, 257, 65537, 128, 66, 255, 256
    };
    uint64_t b = bad[below(sizeof bad / sizeof bad[0])];
    if (one_in(2))
        c->w = b;
    else
        c->h = b;
    if (one_in(4)) {                    /* products that wrap to 0 or 1 */
        c->w = one_in(2) ? UINT64_MAX : (uint64_t)1 << 32;
        c->h = c->w;
    }
    if (one_in(3))
        c->weights.len = 2 * below(3);
}

static void fault_weights_length(struct call_case *c)
{
    unsigned k = below(4);
    if (k == 0) {
        c->weights.len = 0;
    } else if (k == 1) {
        c->weights.len -= 2;
    } else {
        c->weights.byte[c->weights.len] = k == 2 ? 1 : any_byte();
        c->weights.byte[c->weights.len + 1] = k == 2 ? 0 : any_byte();
        c->weights.len += 2;
    }
}

static void fault_table_length(struct call_case *c)
{
    unsigned k = below(4);
    uint64_t was = c->table.len;
    if (k == 0)
        c->table.len = 0;
    else if (k == 1)
        c->table.len -= from_to(1, 7);
    else
        c->table.len += from_to(1, 7);
    for (uint64_t i = was; i < c->table.len; i++)
        c->table.byte[i] = k == 2 ? 0 : any_byte();
}

static void fault_block_length(struct call_case *c)
{
    draw_block(c, 5);
    unsigned whole = below(5), part = from_to(1, 7);
    c->requests.len -= 8 * whole + part;
    fill_any(&c->answers, c->requests.len);
}

static void fault_answers_length(struct call_case *c)
{
    draw_block(c, below(6));
    uint64_t n = c->requests.len;
    switch (below(4)) {
    case 0: fill_any(&c->answers, n + 1); break;
    case 1: fill_any(&c->answers, n == 0 ? 8 : n - 1); break;
    case 2: fill_any(&c->answers, n + 8); break;
    default: fill_any(&c->answers, n == 0 ? 5 : n - 8); break;
    }
}

/* ---- surfaces that do not stand ------------------------------------------- */

static int int_weight(const struct call_case *c, unsigned i)
{
    return (int16_t)(uint16_t)(c->weights.byte[2 * i] + 256u * c->weights.byte[2 * i + 1]);
}

static void put_weight(struct call_case *c, unsigned i, int v)
{
    c->weights.byte[2 * i] = (uint8_t)((unsigned)v & 255);
    c->weights.byte[2 * i + 1] = (uint8_t)((unsigned)v >> 8 & 255);
}

/* A cell that is empty, or occupied; -1 when there is none. */
static int some_cell(const struct call_case *c, int empty)
{
    unsigned n = (unsigned)(c->w * c->h), start = below(n);
    for (unsigned k = 0; k < n; k++)
        if ((int_weight(c, (start + k) % n) > 0) == empty)
            return (int)((start + k) % n);
    return -1;
}

static int slot_covers(const uint8_t *s, unsigned x, unsigned y)
{
    return s[2] <= x && x < (unsigned)s[2] + s[4] && s[3] <= y && y < (unsigned)s[3] + s[5];
}

/* The first, or the last, slot that covers the cell. */
static const uint8_t *cover(const struct call_case *c, unsigned x, unsigned y, int last)
{
    const uint8_t *found = NULL;
    for (uint64_t i = 0; i < c->table.len; i += 8)
        if (slot_covers(c->table.byte + i, x, y) && (last || found == NULL))
            found = c->table.byte + i;
    return found;
}

/* Weights that agree with the table as far as may be, modules cut off at the
 * edges, the first or the last one winning a shared cell. */
static void paint(struct call_case *c, int last)
{
    for (unsigned x = 0; x < c->w; x++) {
        int run = 0;
        for (unsigned y = 0; y < c->h; y++) {
            const uint8_t *s = cover(c, x, y, last);
            run = s == NULL ? run + 1 : 0;
            put_weight(c, y * (unsigned)c->w + x,
                       s == NULL ? run : -(int)(s[2] + s[4] - x));
        }
    }
}

static void write_slot(uint8_t *s, unsigned id, unsigned x, unsigned y, unsigned w, unsigned h)
{
    uint8_t r[8] = { (uint8_t)(id & 255), (uint8_t)(id >> 8), (uint8_t)x, (uint8_t)y,
                     (uint8_t)w, (uint8_t)h, 0, 0 };
    memcpy(s, r, 8);
}

static void damage_weight(struct call_case *c, int empty)
{
    static const int off[] = { 1, -1, 256, -256, 32767, 2 };
    int i = some_cell(c, empty);
    if (i < 0)
        return;
    int v = int_weight(c, (unsigned)i);
    switch (below(4)) {
    case 0: put_weight(c, (unsigned)i, 0); break;
    case 1: put_weight(c, (unsigned)i, -v); break;
    default: put_weight(c, (unsigned)i, v + off[below(6)]); break;
    }
}

/* Below a module the count goes on as if the module were not there. */
static void count_through(struct call_case *c)
{
    for (unsigned i = 0; i < c->w * c->h; i++)
        if (int_weight(c, i) > 0)
            put_weight(c, i, (int)(i / (unsigned)c->w) + 1);
}

enum { SURFACE_FAULTS = 24 };

/* The place of a fault: drawn beforehand, in this order. */
struct draws {
    unsigned x, y, w, h;        /* a rectangle on the surface */
    unsigned byte;              /* 1..255 */
    unsigned pick;              /* 0..5 */
    int cell;                   /* an empty cell, or -1 */
};

static struct draws draw_fault(const struct call_case *c)
{
    struct draws d;
    d.x = below((unsigned)c->w);
    d.y = below((unsigned)c->h);
    d.w = from_to(1, (unsigned)c->w - d.x);
    d.h = from_to(1, (unsigned)c->h - d.y);
    d.byte = from_to(1, 255);
    d.pick = below(6);
    d.cell = some_cell(c, 1);
    return d;
}

/* A used slot damaged. */
static void used_slot_fault(uint8_t *used, unsigned kind, const struct draws *d)
{
    if (kind == 2)                              /* id 0, other bytes set */
        used[0] = used[1] = 0;
    if (kind == 4)                              /* w or h 0 */
        used[4 + d->pick % 2] = 0;
    if (kind == 11)                             /* kind 2, just over a block's */
        used[6] = 2;
    if (kind == 20)                             /* any kind over it */
        used[6] = (uint8_t)(d->byte | 2);
    if (kind == 21) {                           /* byte 7: with the kind 1 in all */
        used[6] = 0;
        used[7] = 1;
    }
    if (kind == 22) {                           /* with the kind 0 in a byte */
        used[6] = 1;
        used[7] = 255;
    }
    if (kind == 15)                             /* gone, the weights stay */
        memset(used, 0, 8);
}

/* A free slot filled, the weights staying or agreeing as far as may be. */
static void free_slot_fault(struct call_case *c, uint8_t *f, unsigned kind,
                            const struct draws *d)
{
    unsigned W = (unsigned)c->w, H = (unsigned)c->h;
    switch (kind) {
    case 3: f[2 + d->pick] = (uint8_t)d->byte; break;   /* id 0, a byte set */
    case 5: write_slot(f, 9, d->x, d->y, 0, d->h); break;
    case 6: write_slot(f, 9, d->x, d->y, d->w, 0); break;
    case 7: write_slot(f, 9, d->x, d->y, W - d->x + 1, 1); paint(c, 1); break;
    case 8: write_slot(f, 9, d->x, d->y, 1, H - d->y + 1); paint(c, 1); break;
    case 9: write_slot(f, 9, 255, d->y, 2, 1); break;   /* the byte sum is 1 */
    case 10: write_slot(f, 9, d->x, 255, 1, 2); break;
    case 16: write_slot(f, 9, d->x, d->y, d->w, d->h); break;
    case 18: write_slot(f, 9, W, d->y, 1, 1); break;    /* wholly off by one */
    case 19: write_slot(f, 9, d->x, H, 1, 1); break;
    case 23: f[6] = 1; break;                           /* a kind alone */
    default: break;
    }
}

/* Two used slots that contradict each other: equal ids on different cells, or
 * different ids with the used one's top left cell shared. */
static void pair_fault(struct call_case *c, uint8_t *f, const uint8_t *used,
                       unsigned kind, const struct draws *d)
{
    unsigned W = (unsigned)c->w, H = (unsigned)c->h;
    if (kind == 12 && d->cell >= 0) {
        write_slot(f, used[0] + 256u * used[1], (unsigned)d->cell % W,
                   (unsigned)d->cell / W, 1, 1);
        paint(c, 1);
    }
    if (kind == 13 || kind == 14) {
        unsigned w = from_to(1, W - used[2]), h = from_to(1, H - used[3]);
        write_slot(f, 9, used[2], used[3], w, h);
        paint(c, kind == 13);
    }
}

/* One fault of the surface; some need a used or a free slot or an empty cell,
 * and change nothing where there is none. */
static void surface_fault(struct call_case *c, unsigned kind)
{
    uint8_t *used = some_slot(c, 1);
    uint8_t *f = some_slot(c, 0);
    struct draws d = draw_fault(c);
    if (kind == 0 || kind == 1)
        damage_weight(c, kind == 0);
    if (kind == 17)
        count_through(c);
    if (f != NULL)
        free_slot_fault(c, f, kind, &d);
    if (f != NULL && used != NULL)
        pair_fault(c, f, used, kind, &d);
    if (used != NULL)
        used_slot_fault(used, kind, &d);
}

/* Surfaces are drawn until this fault makes one not stand. */
static void fault_surface(struct call_case *c, unsigned kind)
{
    for (unsigned tries = 0; tries < 1000; tries++) {
        struct call_case copy;
        standing(c);
        copy = *c;
        surface_fault(c, kind);
        if (check_of(c) == 6)
            return;
        *c = copy;
    }
}

/* ---- room ------------------------------------------------------------------ */

static void draw_room(struct call_case *c)
{
    unsigned n = 8 * entries_of(c);
    fill_any(&c->room, n + (one_in(3) ? 0 : from_to(1, 21)));
    for (uint64_t i = 0; i < c->room.len; i++)
        if (c->room.byte[i] == 0)
            c->room.byte[i] = 170;
}

static void fault_room(struct call_case *c)
{
    unsigned n;
    do
        standing(c);
    while ((n = 8 * entries_of(c)) == 0);
    fill_any(&c->room, one_in(3) ? n - 1 : one_in(3) ? 0 : one_in(2) ? n - 8 : below(n));
}

/* ---- one case ---------------------------------------------------------------- */

/* The codes of each call, in the turn they are aimed at. */
static const uint8_t call_codes[CALLS][6] = {
    { 1, 2, 3, 1, 2, 3 }, { 6, 1, 6, 2, 6, 3 }, { 6, 1, 2, 3, 4, 5 }, { 6, 7, 1, 2, 3, 6 }
};

/* How many cases of each call there were, and in each of the two sorts; the fault
 * of the next surface that is answered 6: each in turn. */
static unsigned of_call[CALLS], sound_of[CALLS], faults_of[CALLS], next_fault;

static void apply_fault(struct call_case *c, unsigned code)
{
    switch (code) {
    case 1: fault_size(c); break;
    case 2: fault_weights_length(c); break;
    case 3: fault_table_length(c); break;
    case 4: fault_block_length(c); break;
    case 5: fault_answers_length(c); break;
    case 6: fault_surface(c, next_fault++ % SURFACE_FAULTS); break;
    default: fault_room(c); break;
    }
}

/* Code 7's room and 6's surface are drawn first, so that a lower fault may come
 * on top of them: the lowest one that applies is given. */
static void faulted_case(struct call_case *c, unsigned code)
{
    standing(c);
    if (c->call == RUN)
        draw_block(c, below(6));
    if (c->call != CLEAR && code < 6 && one_in(4))
        fault_surface(c, below(SURFACE_FAULTS));
    if (code == 6)
        apply_fault(c, 6);
    if (c->call == LIST)
        draw_room(c);
    if (code == 6)
        return;
    if (c->call == RUN && code < 5 && one_in(4))
        apply_fault(c, 5);
    if (code < 3 && one_in(4))
        apply_fault(c, 3);
    if (code < 2 && one_in(4))
        apply_fault(c, 2);
    apply_fault(c, code);
}

static void sound_case(struct call_case *c)
{
    unsigned n = sound_of[c->call]++;
    if (c->call == RUN && n % 12 == 7) {
        standing(c);
        draw_block(c, 0);
    } else if (c->call == RUN) {
        aimed_run(c, (n - (n + 4) / 12) % AIMS);
    } else {
        standing(c);
    }
    if (c->call == LIST)
        draw_room(c);
}

/* "Clear never looks at what the buffers held." */
static void draw_case(struct call_case *c, unsigned long number)
{
    static const uint8_t turn[10] = { RUN, LIST, CHECK, RUN, CLEAR, LIST, RUN, CHECK, LIST, RUN };
    memset(c, 0, sizeof *c);
    c->call = turn[number % 10];
    unsigned n = of_call[c->call]++;
    if (n % 3 == 1)
        faulted_case(c, call_codes[c->call][faults_of[c->call]++ % 6]);
    else
        sound_case(c);
    if (c->call == CLEAR && one_in(2)) {
        fill_any(&c->weights, c->weights.len);
        fill_any(&c->table, c->table.len);
    }
}

DEFINE_ON(brute)

static uint64_t make_call(struct call_case *c)
{
    struct loans l = loans_of(c);
    return on_brute(c->call, &l);
}

/* ---- a case as a line --------------------------------------------------------- */

static void print_bytes(const struct lent *l)
{
    printf(" | ");
    for (uint64_t i = 0; i < l->len; i++)
        printf("%s%u", i == 0 ? "" : " ", l->byte[i]);
}

static void print_weights(const struct call_case *c)
{
    printf(" | ");
    for (unsigned i = 0; i < c->weights.len / 2; i++)
        printf("%s%d", i == 0 ? "" : " ", int_weight(c, i));
}

static void print_before(const struct call_case *c)
{
    printf("%s | %llu %llu", call_name(c->call), (unsigned long long)c->w,
           (unsigned long long)c->h);
    print_weights(c);
    print_bytes(&c->table);
    if (c->call == RUN) {
        print_bytes(&c->requests);
        print_bytes(&c->answers);
    }
    if (c->call == LIST)
        print_bytes(&c->room);
}

static void print_after(const struct call_case *c, uint64_t r)
{
    printf(" | %u %u %u", part_of(r, 0), part_of(r, 1), part_of(r, 2));
    if (c->call == CLEAR || c->call == RUN) {
        print_weights(c);
        print_bytes(&c->table);
    }
    if (c->call == RUN)
        print_bytes(&c->answers);
    if (c->call == LIST)
        print_bytes(&c->room);
    printf("\n");
}

static void print_case(struct call_case *c)
{
    print_before(c);
    print_after(c, make_call(c));
}

/* ---- coverage -------------------------------------------------------------------- */

static unsigned long blocks_of[6], standing_with_hard;

/* Each on the surface that the one before left. */
static void count_exchanges(struct call_case *c)
{
    uint8_t a[8];
    for (uint64_t i = 0; i < c->requests.len; i += 8) {
        struct call_case before = *c;
        struct loans l = loans_of(&before);
        run_on(c, c->requests.byte + i, 8, a);
        count_exchange(&counted, &l, c->requests.byte + i, a);
    }
}

static void count_case(struct call_case *c)
{
    int hard = c->call != CLEAR && first_hard(c) != NULL;
    struct call_case before = *c;
    uint64_t r = make_call(c);
    count_result(c->call, r);
    standing_with_hard += hard && part_of(r, 0) == 0;
    if (c->call != RUN || part_of(r, 0) != 0)
        return;
    blocks_of[c->requests.len / 8]++;
    count_answers(c->answers.byte, c->answers.len);
    count_exchanges(&before);
}

static int print_coverage(void)
{
    print_codes();
    printf("accepted blocks of 0..5 requests:");
    for (unsigned i = 0; i < 6; i++)
        printf(" %lu", blocks_of[i]);
    printf("\nblocks of the fabric on %lu surfaces that stand\n", standing_with_hard);
    print_exchanges(&counted);
    unsigned n = codes_amiss();
    printf("amiss %u\n", n);
    return n == 0 && standing_with_hard != 0 && exchanges_came_up(&counted) ? 0 : 1;
}

static void each_case(unsigned long n, void (*take)(struct call_case *))
{
    static struct call_case c;
    next_fault = below(SURFACE_FAULTS);
    for (unsigned long i = 0; i < n; i++) {
        draw_case(&c, i);
        take(&c);
    }
}

/* ---- the command line -------------------------------------------------------------- */

static int usage(void)
{
    fprintf(stderr, "generate stream KIND SEED N\n"
                    "generate exchanges KIND SEED N\n"
                    "generate cases SEED N\n"
                    "generate coverage SEED N\n");
    return 2;
}

int main(int argc, char **argv)
{
    if (argc < 4)
        return usage();
    int stream = strcmp(argv[1], "stream") == 0, exchanges = strcmp(argv[1], "exchanges") == 0;
    if (argc != (stream || exchanges ? 5 : 4))
        return usage();
    state = strtoull(argv[argc - 2], NULL, 10);
    wanted = strtoul(argv[argc - 1], NULL, 10);
    if (stream || exchanges)
        return stream ? make_stream(argv[2]) : count_stream(argv[2]);
    int coverage = strcmp(argv[1], "coverage") == 0;
    if (!coverage && strcmp(argv[1], "cases") != 0)
        return usage();
    each_case(wanted, coverage ? count_case : print_case);
    return coverage ? print_coverage() : 0;
}
