#include "blocks.h"
#include "both.h"
#include "calls.h"
#include "numbers.h"
#include "pins.h"
#include "surfaces.h"

#include <stdio.h>
#include <string.h>

/* ---- requests ------------------------------------------------------------------------------ */

enum { LENGTH = 600 };

static uint8_t requests[8 * LENGTH];
static unsigned drawn;
static const struct call_case *on;      /* the surface that they are meant for */

static void add(unsigned op, unsigned rule, unsigned id, unsigned w, unsigned h, unsigned b6, unsigned b7)
{
    if (drawn < LENGTH)
        put_request(requests + 8 * drawn++, op, rule, id, w, h, b6, b7);
}

/* An id in the table, or a small one, or any. */
static unsigned some_id(void)
{
    const struct bytes *t = &on->lent[TABLE];
    const uint8_t *s = t->byte + 8 * below((unsigned)t->len / 8);
    if (one_in(3) && is_used(s))
        return s[0] + 256u * s[1];
    return one_in(30) ? 0 : one_in(30) ? below(65536) : one_in(8) ? 256 * from_to(1, 5) : from_to(1, 5);
}

/* The id of a module, or block, where one of four slots drawn has one. */
static unsigned placed_id(void)
{
    const struct bytes *t = &on->lent[TABLE];
    for (unsigned tries = 0; tries < 4; tries++) {
        const uint8_t *s = t->byte + 8 * below((unsigned)t->len / 8);
        if (is_used(s))
            return s[0] + 256u * s[1];
    }
    return some_id();
}

static unsigned some_side(uint64_t limit)
{
    unsigned n = (unsigned)limit;
    return one_in(25) ? 0 : one_in(25) ? any_byte() : one_in(6) ? from_to(1, n + 1) : from_to(1, n / 3 + 1);
}

static unsigned some_rule(void) { return one_in(25) ? any_byte() : below(3); }
static unsigned some_zero(void) { return one_in(25) ? any_byte() : 0; }

static void add_any(void)
{
    uint8_t b[8];
    for (unsigned i = 0; i < 8; i++)
        b[i] = any_byte();
    add(one_in(2) ? b[0] : b[0] % 8, b[1], b[2] + 256u * b[3], b[4], b[5], b[6], b[7]);
}

static void add_place(void)
{
    unsigned rule = some_rule(), id = some_id(), w = some_side(on->w), h = some_side(on->h);
    unsigned b6 = some_zero(), b7 = some_zero();
    add(1, rule, id, w, h, b6, b7);
}

static void add_remove(void)
{
    unsigned rule = some_zero(), id = some_id(), w = some_zero(), h = some_zero();
    unsigned b6 = some_zero(), b7 = some_zero();
    add(2, rule, id, w, h, b6, b7);
}

/* A pin, or a set: "New operation 6 takes the fields of a pin" (order 2). */
static void add_at_place(unsigned op)
{
    unsigned rule = some_zero(), id = some_id(), w = some_side(on->w), h = some_side(on->h);
    unsigned x = one_in(25) ? any_byte() : below((unsigned)on->w);
    unsigned y = one_in(25) ? any_byte() : below((unsigned)on->h);
    add(op, rule, id, w, h, x, y);
}

static void add_pin(void) { add_at_place(3); }
static void add_set(void) { add_at_place(6); }

/* "a weight of at least its height" (order 4): a pin with no row to spare or a row too
 * many, by the weights before the block, the first tall one of a few drawn; another
 * there while it stands, and one more when it has gone. */
static void add_high(void)
{
    uint8_t r[4];
    unsigned id = from_to(1, 65533), op = one_in(4) ? 6 : 3, tries = 6;
    do
        draw_high_place(on, r);
    while (--tries > 0 && r[3] < TALL_FROM);
    add(3, 0, id, r[2], r[3], r[0], r[1]);
    add(op, 0, id + 1, r[2], r[3], r[0], r[1]);
    add(2, 0, id, 0, 0, 0, 0);
    add(op, 0, id + 2, r[2], r[3], r[0], r[1]);
    if (!one_in(4))
        add(2, 0, id + 2, 0, 0, 0, 0);
}

/* The sum in a byte would be on the surface. */
static void add_wrapping_pin(void)
{
    unsigned id = some_id(), far = from_to(1, 100), x = below((unsigned)on->w), y = below((unsigned)on->h);
    unsigned op = one_in(3) ? 6 : 3;
    if (one_in(2))
        add(op, 0, id, far + x, 1, 256 - far, y);
    else
        add(op, 0, id, 1, far + y, x, 256 - far);
}

static void add_exchange(void)
{
    unsigned rule = some_rule(), id = placed_id(), w = some_side(on->w), h = some_side(on->h);
    unsigned b6 = some_zero(), b7 = some_zero();
    add(4, rule, id, w, h, b6, b7);
}

/* "a module exchanged for a larger one under its own id, refused, asked again,
 * then removed" */
static void add_exchanges(void)
{
    unsigned id = one_in(2) ? some_id() : placed_id(), rule = below(3);
    unsigned w = from_to(1, (unsigned)on->w / 4 + 1), h = from_to(1, (unsigned)on->h / 4 + 1);
    unsigned W = (unsigned)on->w, H = (unsigned)on->h;
    add(1, rule, id, w, h, 0, 0);
    for (unsigned n = from_to(1, 5); n > 0; n--) {
        add(4, rule, id, w, h, 0, 0);
        if (one_in(2))
            add(4, rule, id, W + below(2), H, 0, 0);
        if (one_in(2))
            add(4, below(3), id, w, h, 0, 0);
        w += below(2);
        h += below(2);
    }
    if (one_in(3))
        add(4, rule, id, 1, 1, 0, 0);
    if (!one_in(3))
        add(2, 0, id, 0, 0, 0, 0);
    if (one_in(3))
        add(4, rule, id, 1, 1, 0, 0);
}

/* "the new one may not cover a single old cell" (order 3): a module in the columns of
 * the surface to the left, or in its lower rows, as far as others leave them to it,
 * then one that fills the rest, or has one column or row too many, to and fro. */
static void add_across(void)
{
    unsigned id = some_id(), rule = below(3), lying = below(2), W = (unsigned)on->w, H = (unsigned)on->h;
    unsigned w = lying ? W : from_to(1, W), h = lying ? from_to(1, H) : H;
    add(1, rule, id, w, h, 0, 0);
    for (unsigned n = from_to(1, 3); n > 0; n--) {
        unsigned more = one_in(3) ? 1 : 0;
        add(4, rule, id, lying ? W : W - w + more, lying ? H - h + more : H, 0, 0);
        add(4, below(3), id, w, h, 0, 0);
    }
    add(2, 0, id, 0, 0, 0, 0);
}

/* A block of the fabric asked away in vain, and asked for again. */
static void add_at_hard(void)
{
    unsigned id = some_id(), rule = below(3), x = below((unsigned)on->w), y = below((unsigned)on->h);
    unsigned w = one_in(3) ? 0 : some_side(on->w), h = one_in(3) ? 0 : some_side(on->h);
    add(6, 0, id, 1, 1, x, y);
    add(2, 0, id, 0, 0, 0, 0);
    add(4, rule, id, w, h, 0, 0);
    add(one_in(2) ? 6 : 3, 0, id, w, h, x, y);
    if (one_in(2))
        add(1, rule, id, w, h, 0, 0);
}

/* More modules than the table has slots, single cells. */
static void add_many(void)
{
    unsigned W = (unsigned)on->w, H = (unsigned)on->h, id = below(60000);
    for (unsigned n = from_to(1, 20); n > 0; n--) {
        unsigned x = below(W), y = below(H), rule = below(3);
        if (one_in(4))
            add(1, rule, ++id, 1, 1, 0, 0);
        else
            add(one_in(4) ? 6 : 3, 0, ++id, 1, 1, x, y);
    }
}

static void add_some(void)
{
    switch (below(20)) {
    case 0: add_any(); break;
    case 1: case 2: case 3: add_remove(); break;
    case 4: case 5: case 6: add_pin(); break;
    case 7: case 8: add_exchange(); break;
    case 9: case 10: add_exchanges(); break;
    case 11: add_many(); break;
    case 12: add_wrapping_pin(); break;
    case 13: add_set(); break;
    case 14: add_at_hard(); break;
    case 15: add_across(); break;
    case 16: add_high(); break;
    default: add_place(); break;
    }
}

static void draw_requests(const struct call_case *c, unsigned n)
{
    on = c;
    drawn = 0;
    if (one_in(2))
        add_high();
    while (drawn < n)
        add_some();
    drawn = n;
}

/* ---- blocks ---------------------------------------------------------------------------------- */

/* The block from this request on, of so many bytes. */
static uint64_t run_block(struct call_case *c, unsigned from, uint64_t len, uint64_t answers_len)
{
    c->call = RUN;
    set_bytes(&c->lent[REQUESTS], requests + 8 * from, len);
    fill_any(&c->lent[ANSWERS], answers_len);
    c->lent[REQUESTS].null = len == 0 && one_in(2);
    c->lent[ANSWERS].null = answers_len == 0 && one_in(2);
    return both(c);
}

void some_block(struct call_case *c)
{
    unsigned n = below(4);
    draw_requests(c, n);
    run_block(c, 0, 8 * n, 8 * n);
}

void fixed_block(struct call_case *c)
{
    static const unsigned lengths[] = { 0, 8, 16, 24, 7, 17 };
    unsigned len = lengths[below(6)], answers_len = one_in(4) ? len + 1 : len;
    drawn = 0;
    add(1, 0, 7, 1, 1, 0, 0);
    add(4, 1, 7, 2, 1, 0, 0);
    add(2, 0, 9, 0, 0, 0, 0);
    run_block(c, 0, len, answers_len);
}

/* On a copy, so that each is on the same surface. */
static void block_of(const struct call_case *c, uint64_t len, uint64_t answers_len)
{
    static struct call_case copy;
    copy = *c;
    run_block(&copy, 0, len, answers_len);
}

void block_edges(struct call_case *c)
{
    static const unsigned lengths[] = { 0, 1, 7, 8, 9, 15, 16, 4088, 4095, 4096, 4097, 4103, 4104, 4112 };
    draw_requests(c, LENGTH);
    for (unsigned i = 0; i < sizeof lengths / sizeof lengths[0]; i++) {
        block_of(c, lengths[i], lengths[i]);
        block_of(c, lengths[i], lengths[i] + 1);
        block_of(c, lengths[i], lengths[i] + 8);
        block_of(c, lengths[i], lengths[i] > 0 ? lengths[i] - 1 : 1);
        block_of(c, lengths[i], lengths[i] > 8 ? lengths[i] - 8 : 0);
    }
}

/* ---- histories ------------------------------------------------------------------------------- */

/* The same history in blocks of this size, or of sizes drawn where it is 0;
 * compared after each block, one request at a time among them. */
static void in_blocks(const struct call_case *start, unsigned n, unsigned size, struct call_case *end)
{
    *end = *start;
    for (unsigned at = 0; at < n;) {
        unsigned k = size == 0 ? below(9) : size;
        k = k > n - at ? n - at : k;
        run_block(end, at, 8 * k, 8 * k);
        at += k;
    }
}

struct exchanges exchanged;
struct tall pinned;

/* The history one request at a time, with its exchanges and its tall pins counted. */
static void one_by_one(const struct call_case *start, unsigned n, struct call_case *end)
{
    static struct bytes weights, table;
    const struct bytes *lent = end->lent;
    *end = *start;
    for (unsigned at = 0; at < n; at++) {
        set_bytes(&weights, lent[WEIGHTS].byte, lent[WEIGHTS].len);
        set_bytes(&table, lent[TABLE].byte, lent[TABLE].len);
        run_block(end, at, 8, 8);
        struct loans before = { .w = end->w, .h = end->h,
                                .at = { [WEIGHTS] = weights.byte, [TABLE] = table.byte },
                                .len = { [WEIGHTS] = weights.len, [TABLE] = table.len } };
        count_exchange(&exchanged, &before, requests + 8 * at, lent[ANSWERS].byte);
        count_tall(&pinned, requests + 8 * at, lent[ANSWERS].byte);
    }
}

static int same_surface(const struct call_case *a, const struct call_case *b)
{
    return memcmp(a->lent[WEIGHTS].byte, b->lent[WEIGHTS].byte, a->lent[WEIGHTS].len) == 0
        && memcmp(a->lent[TABLE].byte, b->lent[TABLE].byte, a->lent[TABLE].len) == 0;
}

/* "hard blocks that no trigger may use" (order 2): each is afterwards in its slot as it
 * was, byte for byte. */
static int hards_stay(const struct call_case *before, const struct call_case *after)
{
    for (uint64_t i = 0; i < before->lent[TABLE].len; i += 8) {
        const uint8_t *s = before->lent[TABLE].byte + i;
        if (s[6] == HARD && memcmp(s, after->lent[TABLE].byte + i, 8) != 0)
            return 0;
    }
    return 1;
}

void history(struct call_case *c)
{
    static struct call_case one, whole, cut;
    unsigned n = from_to(1, one_in(6) ? 120 : 30);
    draw_requests(c, n);
    one_by_one(c, n, &one);
    in_blocks(c, n, n, &whole);
    in_blocks(c, n, 0, &cut);
    if (!same_surface(&one, &whole) || !same_surface(&one, &cut)) {
        printf("host: the history of case %lu depends on how it is cut\n", cases);
        differ++;
    }
    if (!hards_stay(c, &one)) {
        printf("host: the history of case %lu moves a block of the fabric\n", cases);
        differ++;
    }
    checked_and_listed(&one);
}

/* ---- each code of each operation ------------------------------------------------------------- */

/* On 3x3 with two slots, in this turn: the request, and the code it gives. Module 2
 * stands at (0,0), 3x1, when the sets begin; block 3 at (1,1), 2x1, stays. */
static const uint8_t aimed[][9] = {
    { 3, 0, 7, 0, 1, 1, 1, 1, 0 },
    { 0, 0, 1, 0, 1, 1, 0, 0, 11 }, { 5, 0, 1, 0, 1, 1, 0, 0, 11 }, { 255, 0, 1, 0, 1, 1, 0, 0, 11 },
    { 1, 0, 1, 0, 1, 1, 1, 0, 12 }, { 1, 3, 1, 0, 1, 1, 0, 0, 13 }, { 1, 0, 0, 0, 1, 1, 0, 0, 14 },
    { 1, 0, 7, 0, 1, 1, 0, 0, 15 }, { 1, 0, 1, 0, 0, 1, 0, 0, 17 }, { 1, 0, 1, 0, 2, 2, 0, 0, 20 },
    { 1, 2, 1, 0, 1, 1, 0, 0, 0 }, { 1, 0, 2, 0, 1, 1, 0, 0, 19 }, { 1, 0, 2, 0, 200, 1, 0, 0, 19 },
    { 2, 1, 7, 0, 0, 0, 0, 0, 12 }, { 2, 0, 0, 0, 0, 0, 0, 0, 14 }, { 2, 0, 9, 0, 0, 0, 0, 0, 16 },
    { 3, 1, 2, 0, 1, 1, 0, 0, 12 }, { 3, 0, 0, 0, 1, 1, 0, 0, 14 }, { 3, 0, 7, 0, 1, 1, 0, 0, 15 },
    { 3, 0, 2, 0, 1, 0, 0, 0, 17 }, { 3, 0, 2, 0, 3, 1, 1, 0, 18 }, { 3, 0, 2, 0, 1, 1, 1, 1, 19 },
    { 2, 0, 1, 0, 0, 0, 0, 0, 0 }, { 3, 0, 2, 0, 1, 1, 1, 1, 21 }, { 3, 0, 2, 0, 3, 1, 0, 0, 0 },
    { 4, 0, 7, 0, 1, 1, 0, 1, 12 }, { 4, 3, 7, 0, 1, 1, 0, 0, 13 }, { 4, 0, 0, 0, 1, 1, 0, 0, 14 },
    { 4, 0, 9, 0, 1, 1, 0, 0, 16 }, { 4, 0, 7, 0, 0, 1, 0, 0, 17 }, { 4, 0, 7, 0, 4, 1, 0, 0, 20 },
    { 4, 2, 7, 0, 3, 2, 0, 0, 20 }, { 4, 2, 7, 0, 3, 1, 0, 0, 0 }, { 2, 0, 7, 0, 0, 0, 0, 0, 0 },
    { 6, 1, 3, 0, 1, 1, 0, 1, 12 }, { 6, 0, 0, 0, 1, 1, 0, 1, 14 }, { 6, 0, 2, 0, 1, 1, 0, 1, 15 },
    { 6, 0, 3, 0, 0, 1, 0, 1, 17 }, { 6, 0, 3, 0, 1, 0, 0, 1, 17 }, { 6, 0, 3, 0, 3, 1, 1, 1, 18 },
    { 6, 0, 3, 0, 1, 3, 0, 1, 18 }, { 6, 0, 3, 0, 1, 1, 1, 0, 21 }, { 6, 0, 3, 0, 2, 1, 1, 1, 0 },
    { 6, 0, 4, 0, 1, 1, 0, 2, 19 }, { 6, 0, 4, 0, 1, 1, 1, 1, 19 }, { 7, 0, 4, 0, 1, 1, 0, 2, 11 },
    { 2, 0, 3, 0, 1, 0, 0, 0, 12 }, { 2, 0, 3, 0, 0, 0, 0, 0, 23 }, { 2, 0, 4, 0, 0, 0, 0, 0, 16 },
    { 4, 0, 3, 0, 1, 1, 0, 1, 12 }, { 4, 3, 3, 0, 1, 1, 0, 0, 13 }, { 4, 0, 4, 0, 0, 0, 0, 0, 16 },
    { 4, 0, 3, 0, 1, 1, 0, 0, 23 }, { 4, 2, 3, 0, 2, 1, 0, 0, 23 }, { 4, 0, 3, 0, 0, 0, 0, 0, 23 },
    { 4, 1, 3, 0, 0, 1, 0, 0, 23 }, { 4, 0, 3, 0, 1, 0, 0, 0, 23 }, { 4, 0, 3, 0, 4, 1, 0, 0, 23 },
    { 4, 0, 2, 0, 0, 0, 0, 0, 17 }, { 4, 0, 2, 0, 2, 2, 0, 0, 20 }, { 4, 0, 2, 0, 1, 3, 0, 0, 20 },
    { 4, 0, 2, 0, 1, 2, 0, 0, 0 },
    { 1, 0, 3, 0, 1, 1, 0, 0, 15 }, { 3, 0, 3, 0, 1, 1, 1, 0, 15 }, { 6, 0, 3, 0, 2, 1, 1, 1, 15 },
    { 2, 0, 2, 0, 0, 0, 0, 0, 0 }, { 3, 0, 4, 0, 1, 1, 2, 1, 21 }, { 2, 0, 3, 0, 0, 0, 0, 0, 23 } };

void every_request_code(struct call_case *c)
{
    static struct call_case end;
    drawn = sizeof aimed / sizeof aimed[0];
    for (unsigned i = 0; i < drawn; i++)
        memcpy(requests + 8 * i, aimed[i], 8);
    cleared(c, 3, 3, 2);
    in_blocks(c, drawn, 1, &end);
    in_blocks(c, drawn, drawn, &end);
    for (unsigned i = 0; i < drawn; i++)
        if (end.lent[ANSWERS].byte[8 * i] != aimed[i][8]) {
            printf("host: aimed request %u gave %u\n", i, end.lent[ANSWERS].byte[8 * i]);
            differ++;
        }
}
