/* The library beside the plain C, on the same bytes.
 *
 *   bench count            each measured call once, C before the library
 *   bench table COUNTS     the table; COUNTS has the instructions of each call
 *                          of "bench count", one a line, in its order
 *   bench times            for each row the least of many times, freelist to C
 *   bench compare SEED N   N rounds of drawn surfaces and blocks, both compared
 *
 * Exit status 1 when results or bytes differ, requests are answered otherwise
 * than their row says, or compare met no hard block, no accepted exchange or none
 * that the old module alone barred. A block is one of requests; a hard block is "a
 * block" of the fabric, kind 1. */
#define _POSIX_C_SOURCE 199309L
#include "plain.h"
#include "../include/freelist.h"
#include "../tests/host/damage.h"
#include "../tests/host/laid.h"
#include "../tests/host/numbers.h"
#include "../tests/host/surfaces.h"

#include <stdio.h>
#include <stdlib.h>
#include <string.h>
#include <time.h>

/* The plain C once more under another name, so that what is counted is only
 * what is measured. */
DECLARE_CALLS(setup);

/* ---- both sides ------------------------------------------------------------ */

enum { PLAIN, LIBRARY, SIDES };

/* A call and what it is lent, small enough to be copied before each. */
struct lent {
    unsigned call, w, h, slots, requests_len, room_len;
    uint8_t weights[2 * 64 * 64], table[8 * 256], requests[8 * 512], answers[8 * 512], room[8 * 64 * 64];
};

DEFINE_ON(plain)
DEFINE_ON(freelist)

static uint64_t on(unsigned side, struct lent *l)
{
    struct loans lent = {
        l->w, l->h,
        { l->weights, l->table, l->requests, l->answers, l->room },
        { 2 * l->w * l->h, 8 * l->slots, l->requests_len, l->requests_len, l->room_len } };
    return side == PLAIN ? on_plain(l->call, &lent) : on_freelist(l->call, &lent);
}

/* ---- rows of the table ------------------------------------------------------ */

enum { MEASURED = 160, ANY = -1 };

struct row {
    const char *name;
    unsigned first, calls;              /* measured calls, averaged */
    int is_shown;
    int code;                           /* of every answer, or ANY */
};

static struct lent measured[MEASURED];
static struct row rows[MEASURED];
static unsigned calls, row_count;

static struct lent *add_call(unsigned call, const struct lent *surface)
{
    struct lent *l = &measured[calls++];
    if (calls > MEASURED)
        abort();
    *l = *surface;
    l->call = call;
    l->room_len = sizeof l->room;
    memset(l->room, 0xa5, sizeof l->room);
    memset(l->answers, 0xa5, sizeof l->answers);
    return l;
}

static void add_row(const char *name, unsigned n, int is_shown)
{
    rows[row_count++] = (struct row){ name, calls - n, n, is_shown, ANY };
}

/* ---- surfaces ---------------------------------------------------------------- */

static struct call_case c;
static unsigned W, H;

static void begin(unsigned w, unsigned h)
{
    W = w;
    H = h;
    lay_none(&c, w, h);
}

static const struct lent *painted(void)
{
    static struct lent l;
    paint(&c, 1);
    l.w = W;
    l.h = H;
    l.slots = 256;
    memcpy(l.weights, c.lent[WEIGHTS].byte, sizeof l.weights);
    memcpy(l.table, c.lent[TABLE].byte, sizeof l.table);
    return &l;
}

/* Modules drawn, then smaller and smaller ones for the gaps. Where little is to
 * stay empty, larger ones first, so that 256 do. */
static void occupy(unsigned percent)
{
    unsigned goal = W * H * percent / 100, dense = percent > 50;
    for (unsigned limit = dense ? W / 4 : W / 8 + 2; limit > 0; limit--)
        for (unsigned tries = 0; tries < 2000 && laid_cells() < goal; tries++) {
            unsigned x = below(W), y = below(H), least = dense ? (limit + 1) / 2 : 1;
            unsigned w = from_to(least, limit), h = from_to(least, limit);
            if (laid_cells() + w * h <= goal + 3)
                lay(x, y, w, h);
        }
}

static void nothing(void) { }

static void checkerboard(void)
{
    for (unsigned y = 0; y < H; y++)
        for (unsigned x = y % 2; x < W; x += 2)
            lay(x, y, 1, 1);
}

/* Four single cells in every row. */
static void spread(void)
{
    for (unsigned y = 0; y < H; y++)
        for (unsigned i = 0; i < 4; i++)
            lay((16 * i + 5 * y) % W, y, 1, 1);
}

static void falling_diagonal(void)
{
    for (unsigned y = 0; y < H; y++)
        lay(y % W, y, 1, 1);
}

static void rising_diagonal(void)
{
    for (unsigned y = 0; y < H; y++)
        lay(W - 1 - y % W, y, 1, 1);
}

/* Columns hanging from the top, so that the weights below rise to the right, and
 * single cells at the left edge in every second row below. */
static void hanging_stairs(void)
{
    for (unsigned x = 0; x < W; x += 2)
        lay(x, 0, 2, H / 2 + 1 - x / 2);
    for (unsigned y = H / 2 + 3; y < H; y += 2)
        lay(0, y, 1, 1);
}

/* The same over a floor of single cells in every other column. */
static void stairs_on_a_floor(void)
{
    for (unsigned x = 0; x < W; x++)
        lay(x, 0, 1, H - 6 - 3 * x / 4);
    for (unsigned y = H - 4; y < H; y += 2)
        for (unsigned x = 0; x < W; x += 2)
            lay(x, y, 1, 1);
}

/* A single cell in every second row: the same scanned rows for each W. */
static void same_rows(void)
{
    for (unsigned y = 2; y < H; y += 2)
        lay(7 * y % W, y, 1, 1);
}

static const struct { const char *name; unsigned w, h; void (*make)(void); } worst[] = {
    { "list, empty", 64, 64, nothing },
    { "list, checkerboard", 16, 16, checkerboard }, { "list, checkerboard", 32, 16, checkerboard },
    { "list, single cells spread", 64, 64, spread },
    { "list, diagonal, weights falling", 64, 64, falling_diagonal },
    { "list, diagonal, weights rising", 64, 64, rising_diagonal },
    { "list, hanging stairs", 64, 64, hanging_stairs },
    { "list, stairs on a floor", 64, 64, stairs_on_a_floor },
    { "list, thin lying", 64, 64, lay_lying }, { "list, thin upright", 64, 64, lay_upright },
    { "list, 32 scanned rows", 8, 64, same_rows }, { "list, 32 scanned rows", 16, 64, same_rows },
    { "list, 32 scanned rows", 32, 64, same_rows }, { "list, 32 scanned rows", 64, 64, same_rows } };

/* Gives the call of the list. */
static struct lent *add_surface(const char *list, const char *check)
{
    const struct lent *l = painted();
    add_call(CHECK, l);
    add_row(check, 1, strcmp(check, "") != 0);
    struct lent *called = add_call(LIST, l);
    add_row(list, 1, 1);
    return called;
}

/* W times the number of scanned rows. */
static unsigned scanned_cells(const struct lent *l)
{
    uint8_t is_scanned[65] = { 0 };     /* the row above this one */
    unsigned scanned = 0;
    is_scanned[l->h] = 1;
    for (unsigned i = 0; i < sizeof l->table; i += 8)
        if (is_used(l->table + i))
            is_scanned[l->table[i + 3]] = 1;
    for (unsigned y = 1; y <= l->h; y++)
        scanned += is_scanned[y] * l->w;
    return scanned;
}

/* The same surface once more, and a room of W entries for each scanned row: always
 * enough, and shorter than for W*H entries. */
static void add_room_of_rows(void)
{
    struct lent *l = add_surface("list, room of W × scanned rows", "");
    l->room_len = 8 * scanned_cells(l);
}

/* The ids of the table in the order of its slots, the last one first. */
static void turn_ids(void)
{
    uint8_t *table = c.lent[TABLE].byte;
    unsigned n = laid_modules();
    for (unsigned i = 0; i < n; i++) {
        table[8 * i] = (uint8_t)((n - i) % 256);
        table[8 * i + 1] = (uint8_t)((n - i) / 256);
    }
}

/* A check of 256 single cells on 16x16: the table full, its ids rising from slot
 * to slot, and falling. */
static void add_full_tables(void)
{
    begin(16, 16);
    for (unsigned i = 0; i < 256; i++)
        lay(i % 16, i / 16, 1, 1);
    add_call(CHECK, painted());
    add_row("check, 256 single cells, ids rising", 1, 1);
    turn_ids();
    add_call(CHECK, painted());
    add_row("check, 256 single cells, ids falling", 1, 1);
}

static void add_surfaces(void)
{
    static const char *const lists[] = { "list, 10 %", "list, 50 %", "list, 90 %" };
    static const char *const checks[] = { "check, 10 %", "check, 50 %", "check, 90 %" };
    static const unsigned percents[] = { 10, 50, 90 };
    for (unsigned side = 16; side <= 64; side *= 2)
        for (unsigned i = 0; i < 3; i++) {
            numbers_from(side + percents[i]);
            begin(side, side);
            occupy(percents[i]);
            add_surface(lists[i], checks[i]);
            if (side >= 32 && percents[i] == 50)
                add_room_of_rows();
        }
    for (unsigned i = 0; i < sizeof worst / sizeof worst[0]; i++) {
        begin(worst[i].w, worst[i].h);
        worst[i].make();
        add_surface(worst[i].name, "");
    }
}

/* ---- blocks of 512 under document 000's load ---------------------------------- */

enum { UNITS = 1001 };

static struct lent now;
static uint16_t ends_at[UNITS][64];     /* ids, by time of end; one arrival a unit */
static uint8_t ends[UNITS];
static unsigned last_id, unit;

static uint64_t request(unsigned op, unsigned rule, unsigned id, unsigned w, unsigned h, unsigned x, unsigned y)
{
    return op | rule << 8 | (uint64_t)id << 16 | (uint64_t)w << 32 | (uint64_t)h << 40
        | (uint64_t)x << 48 | (uint64_t)y << 56;
}

/* The request done on the surface of now; 1 where it was accepted. */
static int ask_now(uint8_t *to, uint64_t q)
{
    uint8_t answer[8];
    memcpy(to, &q, 8);
    uint64_t r = setup_run(now.w, now.h, now.weights, 2 * now.w * now.h, now.table, sizeof now.table,
                           to, 8, answer, 8);
    if (part_of(r, 0) != 0)
        abort();
    return answer[0] == 0;
}

static uint64_t arrival(unsigned longest)
{
    unsigned w = from_to(1, longest), h = from_to(1, longest), rule = below(3), kind = below(20);
    unsigned x = below(now.w), y = below(now.h), slot = below(32);
    unsigned old = now.table[8 * slot] + 256u * now.table[8 * slot + 1];
    if (kind == 0)
        return request(3, 0, ++last_id, w, h, x, y);
    if (kind == 1 && old != 0)
        return request(4, rule, old, w, h, 0, 0);
    return request(1, rule, ++last_id, w, h, 0, 0);
}

/* The requests of some time units: departures, then an arrival. */
static unsigned next_requests(uint8_t *to, unsigned most, unsigned longest, unsigned lifetime)
{
    unsigned n = 0;
    while (n < most) {
        unsigned t = unit % UNITS;
        if (ends[t] > 0) {
            unsigned id = ends_at[t][--ends[t]];
            ask_now(to + 8 * n++, request(2, 0, id, 0, 0, 0, 0));
            continue;
        }
        uint64_t q = arrival(longest);
        unsigned end = (unit + from_to(1, lifetime)) % UNITS, is_new = (q & 255) != 4;
        if (ask_now(to + 8 * n++, q) && is_new && ends[end] < 64)
            ends_at[end][ends[end]++] = (uint16_t)last_id;
        unit++;
    }
    return n;
}

static void add_blocks(const char *name, unsigned side, unsigned longest, unsigned lifetime, unsigned n)
{
    static uint8_t warm[8 * 2000];
    numbers_from(side + lifetime);
    begin(side, side);
    now = *painted();
    last_id = unit = 0;
    memset(ends, 0, sizeof ends);
    next_requests(warm, 2000, longest, lifetime);
    for (unsigned i = 0; i < n; i++) {
        struct lent *l = add_call(RUN, &now);
        l->requests_len = 8 * 512;
        next_requests(l->requests, 512, longest, lifetime);
    }
    add_row(name, n, 1);
}

/* ---- the test of a pin --------------------------------------------------------- */

/* 512 requests, the two in turn. The table has 8 slots: with 256 the library's search
 * for the id outweighs its test. */
static void add_pins(const char *name, uint64_t q, uint64_t next, int code)
{
    struct lent *l = add_call(RUN, painted());
    l->slots = 8;
    l->requests_len = sizeof l->requests;
    for (unsigned i = 0; i < l->requests_len; i += 16) {
        memcpy(l->requests + i, &q, 8);
        memcpy(l->requests + i + 8, &next, 8);
    }
    add_row(name, 1, 1);
    rows[row_count - 1].code = code;
}

/* One occupied cell in the place: to a walk from the left, of all the rows from the
 * top or of the bottom row's weights, it shows last, or first. Then none. */
static void add_pin_tests(void)
{
    uint64_t pin = request(3, 0, 2, 32, 32, 16, 16), removal = request(2, 0, 2, 0, 0, 0, 0);
    begin(64, 64);
    lay(47, 47, 1, 1);
    add_pins("512 pins 32×32 refused (21) by the lower right cell", pin, pin, 21);
    begin(64, 64);
    lay(16, 16, 1, 1);
    add_pins("512 pins 32×32 refused (21) by the upper left cell", pin, pin, 21);
    begin(64, 64);
    add_pins("pin 32×32 and remove, 256 times", pin, removal, 0);
}

/* ---- small blocks, and clear --------------------------------------------------- */

static void add_block_of(const char *name, const struct lent *surface, unsigned n, uint64_t q)
{
    struct lent *l = add_call(RUN, surface);
    memcpy(l->requests, &q, 8);
    l->requests_len = 8 * n;
    add_row(name, 1, 1);
}

/* An exchange has the rule and size of one of the places. Its id is that of the last
 * module, so that the search for it, too, goes through all of them. */
static void add_small_blocks(unsigned side)
{
    numbers_from(side + 50);
    begin(side, side);
    occupy(50);
    const struct lent *l = painted();
    unsigned x = 0, y = side / 2, last = laid_modules();
    while (is_laid(x, y))
        x++;
    add_block_of("run, empty block", l, 0, 0);
    add_block_of("run, 1 place 2×2, rule 1", l, 1, request(1, 1, 999, 2, 2, 0, 0));
    add_block_of("run, 1 place refused (20)", l, 1, request(1, 0, 999, side / 2, side / 2, 0, 0));
    add_block_of("run, 1 exchange 2×2", l, 1, request(4, 1, last, 2, 2, 0, 0));
    add_block_of("run, 1 exchange refused (20)", l, 1, request(4, 0, last, side / 2, side / 2, 0, 0));
    add_block_of("run, 1 remove", l, 1, request(2, 0, 1, 0, 0, 0, 0));
    add_block_of("run, 1 pin 1×1", l, 1, request(3, 0, 999, 1, 1, x, y));
    add_block_of("run, 1 set 1×1", l, 1, request(6, 0, 999, 1, 1, x, y));
}

static void make_all(void)
{
    add_surfaces();
    add_full_tables();
    add_blocks("run 512, sides 1–25, lives 1–1000", 64, 25, 1000, 4);
    add_blocks("run 512, sides 1–25, lives 1–50", 64, 25, 50, 4);
    add_blocks("run 512, sides 1–8, lives 1–500", 64, 8, 500, 4);
    add_blocks("run 512, sides 1–12, lives 1–1000", 32, 12, 1000, 4);
    add_small_blocks(16);
    add_small_blocks(64);
    for (unsigned side = 16; side <= 64; side *= 2) {
        begin(side, side);
        checkerboard();
        add_call(CLEAR, painted());
        add_row("clear", 1, 1);
    }
    add_pin_tests();
}

/* ---- the same result and bytes --------------------------------------------------- */

static unsigned long differ;
static struct lent of_plain, of_library; /* what each left, last */

static int is_same(const struct lent *a, const struct lent *b, uint64_t ra, uint64_t rb)
{
    return ra == rb && memcmp(a->weights, b->weights, sizeof a->weights) == 0
        && memcmp(a->table, b->table, sizeof a->table) == 0
        && memcmp(a->answers, b->answers, sizeof a->answers) == 0
        && memcmp(a->room, b->room, sizeof a->room) == 0;
}

/* Both once; the results and the bytes compared. */
static uint64_t both_on(const struct lent *l, const char *name)
{
    of_plain = of_library = *l;
    uint64_t ra = on(PLAIN, &of_plain), rb = on(LIBRARY, &of_library);
    if (!is_same(&of_plain, &of_library, ra, rb)) {
        if (differ++ == 0)
            fprintf(stderr, "bench: differs: %s, %u×%u: %llx %llx\n", name, l->w, l->h,
                    (unsigned long long)ra, (unsigned long long)rb);
    }
    return ra;
}

/* What the library left last, held against the row's code. */
static void hold_to_code(const struct row *r)
{
    if (r->code == ANY)
        return;
    for (unsigned i = 0; i < of_library.requests_len; i += 8)
        if (of_library.answers[i] != r->code) {
            fprintf(stderr, "bench: %s: request %u answered with %u\n", r->name, i / 8,
                    of_library.answers[i]);
            differ++;
            return;
        }
}

static int count(void)
{
    make_all();
    for (unsigned i = 0; i < row_count; i++)
        for (unsigned k = 0; k < rows[i].calls; k++) {
            if (part_of(both_on(&measured[rows[i].first + k], rows[i].name), 0) != 0)
                differ++;
            hold_to_code(&rows[i]);
        }
    return differ != 0;
}

/* ---- time --------------------------------------------------------------------------- */

static double seconds(void)
{
    struct timespec t;
    clock_gettime(CLOCK_MONOTONIC, &t);
    return (double)t.tv_sec + 1e-9 * (double)t.tv_nsec;
}

/* One call on fresh bytes; where it writes nothing that it reads, several. */
static double time_of(unsigned side, const struct lent *l)
{
    static struct lent copy;
    unsigned n = l->call == RUN ? 1 : 16;
    copy = *l;
    double from = seconds();
    for (unsigned i = 0; i < n; i++)
        on(side, &copy);
    return (seconds() - from) / n;
}

/* The least of the rounds for each side, the sides in turn. */
static void times_of(const struct row *r, double least[SIDES])
{
    least[PLAIN] = least[LIBRARY] = 0;
    for (unsigned k = 0; k < r->calls; k++) {
        const struct lent *l = &measured[r->first + k];
        double best[SIDES] = { 1e9, 1e9 };
        double until = seconds() + 0.25 / r->calls;
        for (unsigned i = 0; i < 15 || seconds() < until; i++)
            for (unsigned side = 0; side < SIDES; side++) {
                double t = time_of(side, l);
                best[side] = t < best[side] ? t : best[side];
            }
        for (unsigned side = 0; side < SIDES; side++)
            least[side] += best[side] / r->calls;
    }
}

/* ---- the table ------------------------------------------------------------------------ */

static unsigned long counted[MEASURED][SIDES];

static void read_counts(const char *path)
{
    FILE *f = fopen(path, "r");
    for (unsigned i = 0; i < calls; i++)
        for (unsigned side = 0; side < SIDES; side++)
            if (f == NULL || fscanf(f, "%lu", &counted[i][side]) != 1) {
                fprintf(stderr, "bench: too few counts\n");
                exit(2);
            }
    fclose(f);
}

static unsigned long average(const struct row *r, unsigned side)
{
    unsigned long sum = 0;
    for (unsigned k = 0; k < r->calls; k++)
        sum += counted[r->first + k][side];
    return sum / r->calls;
}

/* Modules, occupied cells and scanned cells of a surface. */
static void measure(const struct lent *l, unsigned *used, unsigned *occupied, unsigned *scanned)
{
    *used = *occupied = 0;
    *scanned = scanned_cells(l);
    for (unsigned i = 0; i < sizeof l->table; i += 8) {
        const uint8_t *s = l->table + i;
        *used += is_used(s) ? 1 : 0;
        *occupied += s[4] * s[5];
    }
}

static void print_row(const struct row *r)
{
    const struct lent *l = &measured[r->first];
    unsigned used, occupied, scanned;
    double plain = (double)average(r, PLAIN), library = (double)average(r, LIBRARY);
    measure(l, &used, &occupied, &scanned);
    printf("| %s | %u×%u | %u | %u | %u | %.0f | %.0f | %.2f |", r->name, l->w, l->h, used,
           100 * occupied / (l->w * l->h), scanned, plain, library, library / plain);
    if (l->call == LIST) {
        const struct row *check = r - 1;
        for (unsigned side = 0; side < SIDES; side++)
            printf(" %.1f (whole %.1f) |", (double)(average(r, side) - average(check, side)) / scanned,
                   (double)average(r, side) / scanned);
        printf("\n");
    } else {
        printf(" | |\n");
    }
}

static int table(const char *path)
{
    make_all();
    read_counts(path);
    printf("| case | W×H | modules | occupied %% | scanned cells | instructions C | instructions freelist |"
           " ratio | C per scanned cell, list less check | freelist per scanned cell |\n"
           "|---|---|---|---|---|---|---|---|---|---|\n");
    for (unsigned i = 0; i < row_count; i++)
        if (rows[i].is_shown)
            print_row(&rows[i]);
    return 0;
}

static int times(void)
{
    make_all();
    printf("| case | W×H | time, freelist to C |\n|---|---|---|\n");
    for (unsigned i = 0; i < row_count; i++)
        if (rows[i].is_shown) {
            const struct lent *l = &measured[rows[i].first];
            double t[SIDES];
            times_of(&rows[i], t);
            printf("| %s | %u×%u | %.2f |\n", rows[i].name, l->w, l->h, t[LIBRARY] / t[PLAIN]);
        }
    return 0;
}

/* ---- compare ----------------------------------------------------------------------------- */

static unsigned long compared;
static unsigned long sets, kept;        /* operation 6 accepted, 23 answered */
static unsigned long exchanged, barred; /* operation 4 accepted; refused for the old module alone */

static void compare_call(struct lent *l, unsigned call)
{
    l->call = call;
    both_on(l, call_name(call));
    compared++;
}

/* Used slots become hard blocks; now and then one, used or free, has a kind and a
 * spare byte beside those that stand. */
static void draw_kinds(struct lent *l)
{
    static const uint8_t beside[][2] = { { 1, 0 }, { 2, 0 }, { 255, 0 }, { 0, 1 }, { 1, 1 } };
    unsigned slot = below(8), k = below(5);
    for (unsigned i = 0; i < sizeof l->table; i += 8)
        if (is_used(l->table + i) && l->table[i + 6] == 0 && one_in(4)) /* a damaged byte stays */
            l->table[i + 6] = 1;
    if (one_in(8))
        memcpy(l->table + 8 * slot + 6, beside[k], 2);
}

/* One of some slot, which may be free, or any. */
static unsigned some_id(const struct lent *l)
{
    unsigned id = one_in(40) ? 0 : from_to(1, 40), slot = below(one_in(2) ? 4 : 16);
    return one_in(2) ? id : l->table[8 * slot] + 256u * l->table[8 * slot + 1];
}

static uint64_t some_request(const struct lent *l)
{
    unsigned op = one_in(30) ? any_byte() : from_to(1, 6), rule = one_in(30) ? any_byte() : below(3);
    unsigned id = some_id(l), w = one_in(20) ? any_byte() : from_to(1, W / 2 + 1);
    unsigned h = one_in(20) ? any_byte() : from_to(1, H / 2 + 1), x = below(W), y = below(H);
    unsigned has_place = op == 3 || op == 6;
    if (op == 2 && !one_in(20))
        rule = w = h = 0;
    if (has_place && !one_in(20))
        rule = 0;
    if (!has_place && !one_in(30))
        x = y = 0;
    return request(op, rule, id, w, h, x, y);
}

/* An exchange in two: the old module removed, and a place of the new size. */
static uint64_t remove_for(uint64_t q) { return request(2, 0, q >> 16 & 0xffff, 0, 0, 0, 0); }
static uint64_t place_for(uint64_t q) { return q - 4 + 1; }

/* Behind an exchange, now and then, the same asked for in two. */
static void draw_requests(struct lent *l)
{
    uint64_t q[40] = { 0 };
    unsigned n = from_to(0, 40);
    for (unsigned i = 0; i < n; i++) {
        q[i] = some_request(l);
        if ((q[i] & 255) == 4 && i + 2 < n && one_in(2)) {
            q[i + 1] = remove_for(q[i]);
            q[i + 2] = place_for(q[i]);
            i += 2;
        }
    }
    memcpy(l->requests, q, sizeof q);
    l->requests_len = 8 * n;
}

/* An exchange refused with 20, though what it asks for has a position once the old
 * module is removed: "judged with the old module in its place". */
static int is_barred(const uint8_t *q, const uint8_t *a)
{
    return q[0] == 4 && a[0] == 20 && q[8] == 2 && a[8] == 0 && memcmp(q + 2, q + 10, 2) == 0
        && q[16] == 1 && a[16] == 0 && memcmp(q + 1, q + 17, 5) == 0;
}

/* The answers of the last run, so that draws which miss hard blocks or exchanges
 * are seen. */
static void count_seen(void)
{
    const uint8_t *q = of_plain.requests, *a = of_plain.answers;
    for (unsigned i = 0; i < of_plain.requests_len; i += 8) {
        sets += a[i] == 0 && a[i + 1] == 6;
        kept += a[i] == 23;
        exchanged += a[i] == 0 && a[i + 1] == 4;
        barred += i + 16 < of_plain.requests_len && is_barred(q + i, a + i);
    }
}

/* Weights and table drawn; check, list with rooms enough and too short, a block. */
static void compare_surface(void)
{
    static struct lent l;
    W = l.w = (unsigned)c.w;
    H = l.h = (unsigned)c.h;
    l.slots = 256;
    memset(l.weights, 0, sizeof l.weights);
    memset(l.table, 0, sizeof l.table);
    memcpy(l.weights, c.lent[WEIGHTS].byte, c.lent[WEIGHTS].len);
    memcpy(l.table, c.lent[TABLE].byte, c.lent[TABLE].len);
    draw_kinds(&l);
    memset(l.room, 0xa5, sizeof l.room);
    memset(l.answers, 0xa5, sizeof l.answers);
    compare_call(&l, CHECK);
    l.room_len = sizeof l.room;
    compare_call(&l, LIST);
    l.room_len = below(40) * 4;
    compare_call(&l, LIST);
    draw_requests(&l);
    compare_call(&l, RUN);
    count_seen();
    compare_call(&l, CLEAR);
}

static int compare(uint64_t seed, unsigned long n)
{
    numbers_from(seed);
    for (unsigned long i = 0; i < n; i++) {
        small_surface(&c, (unsigned)(i % SHAPES));
        compare_surface();
        damaged_surface(&c, (unsigned)(i % DAMAGES), small_surface);
        compare_surface();
        if (i % 8 == 0) {
            large_surface(&c, (unsigned)(i / 8 % SHAPES));
            compare_surface();
        }
    }
    printf("bench: %lu calls compared, %lu differ; hard blocks set: %lu, code 23: %lu; exchanged: %lu, refused for the old module alone: %lu\n",
           compared, differ, sets, kept, exchanged, barred);
    return differ != 0 || sets == 0 || kept == 0 || exchanged == 0 || barred == 0;
}

int main(int argc, char **argv)
{
    if (argc == 2 && strcmp(argv[1], "count") == 0)
        return count();
    if (argc == 3 && strcmp(argv[1], "table") == 0)
        return table(argv[2]);
    if (argc == 2 && strcmp(argv[1], "times") == 0)
        return times();
    if (argc == 4 && strcmp(argv[1], "compare") == 0)
        return compare(strtoull(argv[2], NULL, 10), strtoul(argv[3], NULL, 10));
    fprintf(stderr, "bench count\nbench table COUNTS\nbench times\nbench compare SEED N\n");
    return 2;
}
