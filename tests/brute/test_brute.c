/* Self-tests of the brute force: the worked figures, the edges, each condition
 * of "a surface stands", each code and its neighbour. */
#include "brute.h"
#include "brute_program.h"

#include <stdio.h>
#include <string.h>

static unsigned checks, failed;

static void check_at(int line, int ok, const char *what)
{
    checks++;
    if (!ok) {
        failed++;
        printf("line %d: failed: %s\n", line, what);
    }
}
#define CHECK(e) check_at(__LINE__, (e) ? 1 : 0, #e)

/* ---- a bench: one surface with its lent buffers ----------------------- */

struct bench {
    uint64_t w, h, slots;
    uint8_t weights[2 * 64 * 64 + 2];
    uint8_t table[257 * 8 + 8];
    uint8_t answer[8];
    uint8_t room[64 * 64 * 8];
    uint64_t listed;
};

static uint64_t weights_len(const struct bench *b) { return 2 * b->w * b->h; }
static uint64_t table_len(const struct bench *b) { return 8 * b->slots; }

static uint64_t code_of(uint64_t r) { return r & 0xffff; }
static uint64_t first_of(uint64_t r) { return r >> 16 & 0xffff; }
static uint64_t second_of(uint64_t r) { return r >> 32; }

static void cleared(struct bench *b, uint64_t w, uint64_t h, uint64_t slots)
{
    memset(b, 0xa5, sizeof *b);
    b->w = w;
    b->h = h;
    b->slots = slots;
    CHECK(brute_clear(w, h, b->weights, weights_len(b), b->table, table_len(b)) == 0);
}

static uint64_t check_call(const struct bench *b)
{
    return brute_check(b->w, b->h, b->weights, weights_len(b), b->table, table_len(b));
}

/* One request as a block of one; its code. */
static unsigned ask8(struct bench *b, unsigned op, unsigned rule, unsigned id,
                     unsigned w, unsigned h, unsigned b6, unsigned b7)
{
    uint8_t q[8] = { (uint8_t)op, (uint8_t)rule, (uint8_t)(id % 256),
                     (uint8_t)(id / 256), (uint8_t)w, (uint8_t)h,
                     (uint8_t)b6, (uint8_t)b7 };
    struct bench before = *b;
    memset(b->answer, 0xee, 8);
    uint64_t r = brute_run(b->w, b->h, b->weights, weights_len(b), b->table,
                           table_len(b), q, 8, b->answer, 8);
    CHECK(code_of(r) == 0);
    CHECK(second_of(r) == 0);
    CHECK(first_of(r) == (b->answer[0] == 0 ? 1u : 0u));
    CHECK(b->answer[1] == q[0] && b->answer[2] == q[2] && b->answer[3] == q[3]);
    CHECK(code_of(check_call(b)) == 0);
    if (b->answer[0] != 0) {
        CHECK(memcmp(b->answer + 4, "\0\0\0\0", 4) == 0);
        CHECK(memcmp(b->weights, before.weights, sizeof b->weights) == 0);
        CHECK(memcmp(b->table, before.table, sizeof b->table) == 0);
    }
    return b->answer[0];
}

static unsigned place(struct bench *b, unsigned id, unsigned w, unsigned h, unsigned rule)
{ return ask8(b, 1, rule, id, w, h, 0, 0); }
static unsigned removed(struct bench *b, unsigned id)
{ return ask8(b, 2, 0, id, 0, 0, 0, 0); }
static unsigned pin(struct bench *b, unsigned id, unsigned w, unsigned h, unsigned x, unsigned y)
{ return ask8(b, 3, 0, id, w, h, x, y); }
static unsigned exchange(struct bench *b, unsigned id, unsigned w, unsigned h, unsigned rule)
{ return ask8(b, 4, rule, id, w, h, 0, 0); }
static unsigned set(struct bench *b, unsigned id, unsigned w, unsigned h, unsigned x, unsigned y)
{ return ask8(b, 6, 0, id, w, h, x, y); }

/* The last answer's x, y, w, h. */
static int at(const struct bench *b, unsigned x, unsigned y, unsigned w, unsigned h)
{
    return b->answer[4] == x && b->answer[5] == y && b->answer[6] == w && b->answer[7] == h;
}

static int weight(const struct bench *b, unsigned x, unsigned y)
{
    unsigned i = 2 * (y * (unsigned)b->w + x);
    return (int16_t)(uint16_t)(b->weights[i] + 256u * b->weights[i + 1]);
}

static void set_weight(struct bench *b, unsigned x, unsigned y, int v)
{
    unsigned i = 2 * (y * (unsigned)b->w + x);
    b->weights[i] = (uint8_t)((unsigned)v & 255);
    b->weights[i + 1] = (uint8_t)((unsigned)v >> 8 & 255);
}

static int row_is(const struct bench *b, unsigned y, const int *want)
{
    for (unsigned x = 0; x < b->w; x++)
        if (weight(b, x, y) != want[x])
            return 0;
    return 1;
}

static void list_call(struct bench *b)
{
    memset(b->room, 0xdd, sizeof b->room);
    b->listed = brute_list(b->w, b->h, b->weights, weights_len(b), b->table,
                           table_len(b), b->room, sizeof b->room);
    CHECK(code_of(b->listed) == 0);
    CHECK(b->room[8 * first_of(b->listed)] == 0xdd);
}

static int entry_is(const struct bench *b, unsigned i, unsigned x, unsigned y,
                    unsigned w, unsigned h)
{
    uint8_t want[8] = { (uint8_t)x, (uint8_t)y, (uint8_t)w, (uint8_t)h,
                        (uint8_t)(w * h % 256), (uint8_t)(w * h / 256), 0, 0 };
    return memcmp(b->room + 8 * i, want, 8) == 0;
}

static int record_is(const struct bench *b, unsigned i, unsigned id, unsigned x,
                     unsigned y, unsigned w, unsigned h, unsigned kind)
{
    uint8_t want[8] = { (uint8_t)(id % 256), (uint8_t)(id / 256), (uint8_t)x,
                        (uint8_t)y, (uint8_t)w, (uint8_t)h, (uint8_t)kind, 0 };
    return memcmp(b->table + 8 * i, want, 8) == 0;
}

/* "its kind: 0 a module, 1 a block" */
static int slot_is(const struct bench *b, unsigned i, unsigned id, unsigned x,
                   unsigned y, unsigned w, unsigned h)
{ return record_is(b, i, id, x, y, w, h, 0); }
static int hard_is(const struct bench *b, unsigned i, unsigned id, unsigned x,
                   unsigned y, unsigned w, unsigned h)
{ return record_is(b, i, id, x, y, w, h, 1); }

static int counts(struct bench *b, unsigned entries, unsigned corners)
{
    list_call(b);
    return first_of(b->listed) == entries && second_of(b->listed) == corners;
}

static unsigned scanned(const struct bench *b)
{
    return brute_scanned_rows((unsigned)b->w, (unsigned)b->h, b->table, table_len(b));
}

/* ---- the worked figures ------------------------------------------------ */

static void cases_a_to_c(void)
{
    struct bench b;
    cleared(&b, 4, 3, 4);                                   /* A */
    CHECK(counts(&b, 1, 1));
    CHECK(entry_is(&b, 0, 0, 0, 4, 3));
    for (unsigned y = 0; y < 3; y++)
        for (unsigned x = 0; x < 4; x++)
            CHECK(weight(&b, x, y) == (int)y + 1);

    CHECK(place(&b, 1, 2, 1, 2) == 0 && at(&b, 0, 2, 2, 1)); /* B */
    CHECK(row_is(&b, 2, (int[]){ -2, -1, 3, 3 }));
    CHECK(counts(&b, 2, 2));
    CHECK(entry_is(&b, 0, 0, 0, 4, 2) && entry_is(&b, 1, 2, 0, 2, 3));

    CHECK(place(&b, 2, 3, 2, 0) == 0 && at(&b, 0, 0, 3, 2)); /* C */
    CHECK(row_is(&b, 2, (int[]){ -2, -1, 1, 3 }));
    CHECK(counts(&b, 2, 2));
    CHECK(entry_is(&b, 0, 2, 2, 2, 1) && entry_is(&b, 1, 3, 0, 1, 3));
    CHECK(check_call(&b) == (uint64_t)2 << 16);
}

static void case_d_of(struct bench *b)
{
    cleared(b, 3, 3, 3);
    CHECK(pin(b, 7, 1, 1, 1, 1) == 0 && at(b, 1, 1, 1, 1));
}

static void cases_d_to_f(void)
{
    struct bench b;
    case_d_of(&b);                                          /* D */
    CHECK(row_is(&b, 0, (int[]){ 1, 1, 1 }));
    CHECK(row_is(&b, 1, (int[]){ 2, -1, 2 }));
    CHECK(row_is(&b, 2, (int[]){ 3, 1, 3 }));
    CHECK(counts(&b, 4, 3));
    CHECK(entry_is(&b, 0, 0, 0, 3, 1) && entry_is(&b, 1, 0, 0, 1, 3));
    CHECK(entry_is(&b, 2, 0, 2, 3, 1) && entry_is(&b, 3, 2, 0, 1, 3));

    for (unsigned rule = 0; rule < 3; rule++) {             /* E */
        case_d_of(&b);
        CHECK(place(&b, 8, 2, 2, rule) == 20);
    }
    unsigned y_of_rule[3] = { 0, 0, 2 };                    /* F */
    for (unsigned rule = 0; rule < 3; rule++) {
        case_d_of(&b);
        CHECK(place(&b, 8, 1, 1, rule) == 0 && at(&b, 0, y_of_rule[rule], 1, 1));
    }
}

static void cases_g_to_i(void)
{
    struct bench b, d;
    case_d_of(&d);
    b = d;
    for (unsigned rule = 0; rule < 3; rule++) {
        CHECK(exchange(&b, 7, 2, 2, rule) == 20);           /* G: "now gives 20" (order 3) */
        CHECK(exchange(&b, 7, 4, 1, rule) == 20);           /* H */
    }
    CHECK(memcmp(b.weights, d.weights, sizeof d.weights) == 0);
    CHECK(memcmp(b.table, d.table, sizeof d.table) == 0);

    for (unsigned slots = 1; slots <= 2; slots++) {         /* I */
        cleared(&b, 1, 1, slots);
        CHECK(place(&b, 1, 1, 1, 0) == 0 && at(&b, 0, 0, 1, 1));
        CHECK(counts(&b, 0, 0));
        CHECK(brute_list(1, 1, b.weights, 2, b.table, table_len(&b), b.room, 0) == 0);
        CHECK(place(&b, 2, 1, 1, 0) == (slots == 1 ? 19 : 20));
    }
}

/* Equal weights and lists, 3 corners or 2, 3 scanned rows or 2. */
static void two_by_three(void)
{
    struct bench a, b;
    cleared(&a, 2, 3, 2);
    CHECK(pin(&a, 1, 1, 1, 0, 1) == 0 && pin(&a, 2, 1, 1, 0, 2) == 0);
    cleared(&b, 2, 3, 2);
    CHECK(pin(&b, 1, 1, 2, 0, 1) == 0);
    CHECK(memcmp(a.weights, b.weights, sizeof a.weights) == 0);
    CHECK(counts(&a, 2, 3) && scanned(&a) == 3);
    CHECK(counts(&b, 2, 2) && scanned(&b) == 2);
    CHECK(memcmp(a.room, b.room, sizeof a.room) == 0);
    CHECK(entry_is(&a, 0, 0, 0, 2, 1) && entry_is(&a, 1, 1, 0, 1, 3));
}

/* "the list never has more than W entries for each scanned row": a surface with as
 * many. A top row of 0 scans none, and two modules with one top row scan one. */
static void scanned_rows(void)
{
    struct bench b;
    cleared(&b, 2, 2, 3);
    CHECK(counts(&b, 1, 1) && scanned(&b) == 1);
    CHECK(pin(&b, 1, 1, 1, 0, 0) == 0 && counts(&b, 2, 1) && scanned(&b) == 1);
    CHECK(entry_is(&b, 0, 0, 1, 2, 1) && entry_is(&b, 1, 1, 0, 1, 2));
    CHECK(code_of(brute_list(2, 2, b.weights, 8, b.table, 24, b.room, 8 * 2 * 1)) == 0);
    CHECK(code_of(brute_list(2, 2, b.weights, 8, b.table, 24, b.room, 8 * 2 * 1 - 8)) == 7);
    CHECK(pin(&b, 2, 1, 1, 0, 1) == 0 && counts(&b, 1, 2) && scanned(&b) == 2);
    CHECK(pin(&b, 3, 1, 1, 1, 1) == 0 && counts(&b, 1, 1) && scanned(&b) == 2);
}

/* ---- figures with a block of the fabric ------------------------------------ */

/* 4x3, three slots: block 5, 2x1 at (1,1). */
static void hard_of(struct bench *b)
{
    cleared(b, 4, 3, 3);
    CHECK(set(b, 5, 2, 1, 1, 1) == 0 && at(b, 1, 1, 2, 1));
    CHECK(hard_is(b, 0, 5, 1, 1, 2, 1));
}

/* "Blocks count as modules for cells, weights, scanned rows and ids." */
static void hard_counts(void)
{
    struct bench b, pinned;
    hard_of(&b);
    CHECK(row_is(&b, 0, (int[]){ 1, 1, 1, 1 }));
    CHECK(row_is(&b, 1, (int[]){ 2, -2, -1, 2 }));
    CHECK(row_is(&b, 2, (int[]){ 3, 1, 1, 3 }));
    CHECK(counts(&b, 4, 3) && scanned(&b) == 2 && check_call(&b) == (uint64_t)1 << 16);
    CHECK(entry_is(&b, 0, 0, 0, 4, 1) && entry_is(&b, 1, 0, 0, 1, 3));
    CHECK(entry_is(&b, 2, 0, 2, 4, 1) && entry_is(&b, 3, 3, 0, 1, 3));
    cleared(&pinned, 4, 3, 3);              /* a module there differs by its kind */
    CHECK(pin(&pinned, 5, 2, 1, 1, 1) == 0 && counts(&pinned, 4, 3));
    CHECK(memcmp(pinned.weights, b.weights, sizeof b.weights) == 0);
    CHECK(memcmp(pinned.room, b.room, sizeof b.room) == 0);
    CHECK(slot_is(&pinned, 0, 5, 1, 1, 2, 1));
    CHECK(set(&b, 6, 4, 1, 0, 0) == 0 && scanned(&b) == 2);
    CHECK(check_call(&b) == (uint64_t)2 << 16);
}

/* "hard blocks that no trigger may use": the modules around one come and go. */
static void hard_stays(void)
{
    struct bench b;
    hard_of(&b);
    CHECK(place(&b, 1, 2, 1, 0) == 0 && at(&b, 0, 0, 2, 1) && slot_is(&b, 1, 1, 0, 0, 2, 1));
    CHECK(removed(&b, 5) == 23 && exchange(&b, 5, 1, 1, 0) == 23);
    CHECK(exchange(&b, 5, 0, 0, 0) == 23 && exchange(&b, 5, 2, 1, 0) == 23);
    CHECK(place(&b, 5, 1, 1, 0) == 15);
    CHECK(pin(&b, 5, 1, 1, 0, 2) == 15 && set(&b, 5, 1, 1, 0, 2) == 15);
    CHECK(pin(&b, 6, 1, 1, 2, 1) == 21 && set(&b, 6, 1, 1, 1, 1) == 21);
    CHECK(place(&b, 6, 3, 2, 0) == 20 && exchange(&b, 1, 4, 2, 0) == 20);
    CHECK(exchange(&b, 1, 4, 1, 2) == 0 && at(&b, 0, 2, 4, 1) && slot_is(&b, 1, 1, 0, 2, 4, 1));
    CHECK(removed(&b, 1) == 0 && removed(&b, 1) == 16);
    CHECK(hard_is(&b, 0, 5, 1, 1, 2, 1) && check_call(&b) == (uint64_t)1 << 16);
}

/* "Clear removes them too." The id and the slot are free again. */
static void hard_cleared(void)
{
    struct bench b;
    hard_of(&b);
    CHECK(brute_clear(4, 3, b.weights, 24, b.table, 24) == 0 && check_call(&b) == 0);
    CHECK(slot_is(&b, 0, 0, 0, 0, 0, 0) && counts(&b, 1, 1));
    CHECK(removed(&b, 5) == 16 && exchange(&b, 5, 1, 1, 0) == 16);
    CHECK(pin(&b, 5, 4, 3, 0, 0) == 0 && slot_is(&b, 0, 5, 0, 0, 4, 3));
    CHECK(removed(&b, 5) == 0);
}

/* The lowest free slot, and a slot that a module left: its kind is written
 * anew each way. */
static void hard_slots(void)
{
    struct bench b;
    cleared(&b, 4, 3, 3);
    CHECK(pin(&b, 1, 1, 1, 0, 0) == 0 && set(&b, 258, 1, 1, 1, 0) == 0);
    CHECK(slot_is(&b, 0, 1, 0, 0, 1, 1) && hard_is(&b, 1, 258, 1, 0, 1, 1));
    CHECK(removed(&b, 1) == 0 && set(&b, 3, 1, 2, 3, 1) == 0 && hard_is(&b, 0, 3, 3, 1, 1, 2));
    CHECK(place(&b, 4, 1, 1, 0) == 0 && b.table[8 * 2] == 4 && b.table[8 * 2 + 6] == 0);
    CHECK(exchange(&b, 4, 2, 1, 1) == 0 && b.table[8 * 2] == 4 && b.table[8 * 2 + 6] == 0);
    CHECK(set(&b, 9, 1, 1, 0, 2) == 19 && removed(&b, 4) == 0 && set(&b, 9, 1, 1, 0, 2) == 0);
    CHECK(hard_is(&b, 2, 9, 0, 2, 1, 1) && check_call(&b) == (uint64_t)3 << 16);
}

/* ---- the edges ---------------------------------------------------------- */

static uint64_t clear_of(uint64_t w, uint64_t h, uint64_t wl, uint64_t tl)
{
    static uint8_t weights[2 * 65 * 65], table[257 * 8 + 8];
    static uint8_t old_weights[sizeof weights], old_table[sizeof table];
    memset(weights, 0x5a, sizeof weights);
    memset(table, 0x5a, sizeof table);
    memcpy(old_weights, weights, sizeof weights);
    memcpy(old_table, table, sizeof table);
    uint64_t r = brute_clear(w, h, weights, wl, table, tl);
    if (r != 0) {
        CHECK(memcmp(weights, old_weights, sizeof weights) == 0);
        CHECK(memcmp(table, old_table, sizeof table) == 0);
    } else {
        CHECK(memcmp(weights + wl, old_weights + wl, sizeof weights - wl) == 0);
        CHECK(memcmp(table + tl, old_table + tl, sizeof table - tl) == 0);
    }
    return r;
}

static void size_edges(void)
{
    CHECK(clear_of(64, 64, 8192, 8) == 0);
    CHECK(clear_of(64, 1, 128, 8) == 0);
    CHECK(clear_of(65, 1, 130, 8) == 1);
    CHECK(clear_of(1, 65, 130, 8) == 1);
    CHECK(clear_of(1, 0, 0, 8) == 1);
    CHECK(clear_of(0, 1, 0, 8) == 1);
    CHECK(clear_of(UINT64_MAX, 1, 0, 8) == 1);
    CHECK(clear_of(1, UINT64_MAX, 0, 8) == 1);
    CHECK(clear_of(UINT64_MAX, UINT64_MAX, 2, 8) == 1);   /* the product is 1 */
    CHECK(clear_of((uint64_t)1 << 32, (uint64_t)1 << 31, 0, 8) == 1);
    CHECK(clear_of(257, 1, 2, 8) == 1);
    CHECK(clear_of(4, 3, 24, 8) == 0);
    CHECK(clear_of(4, 3, 22, 8) == 2);
    CHECK(clear_of(4, 3, 26, 8) == 2);
    CHECK(clear_of(4, 3, 23, 8) == 2);
    CHECK(clear_of(4, 3, 25, 8) == 2);
    CHECK(clear_of(4, 3, 12, 8) == 2);
    CHECK(clear_of(4, 3, 0, 8) == 2);
    CHECK(clear_of(4, 3, 24, 256 * 8) == 0);
    CHECK(clear_of(4, 3, 24, 257 * 8) == 3);
    CHECK(clear_of(4, 3, 24, 0) == 3);
    CHECK(clear_of(4, 3, 24, 7) == 3);
    CHECK(clear_of(4, 3, 24, 9) == 3);
    CHECK(clear_of(4, 3, 24, 256 * 8 + 1) == 3);
    CHECK(clear_of(65, 3, 0, 0) == 1);                    /* lowest first */
    CHECK(clear_of(4, 3, 0, 0) == 2);
}

/* The same sizes in the other calls; every refused call writes nothing. */
static void sizes_elsewhere(void)
{
    struct bench b, was;
    uint8_t q[8] = { 1, 0, 1, 0, 1, 1, 0, 0 };
    cleared(&b, 4, 3, 2);
    was = b;
    struct { uint64_t w, h, wl, tl; unsigned code; } t[] = {
        { 65, 3, 24, 16, 1 }, { 4, 0, 24, 16, 1 }, { UINT64_MAX, 3, 24, 16, 1 },
        { 4, UINT64_MAX, 0, 0, 1 }, { (uint64_t)1 << 63, 2, 0, 16, 1 },
        { 4, 3, 22, 16, 2 }, { 4, 3, 26, 16, 2 }, { 4, 3, 25, 16, 2 },
        { 3, 4, 24, 0, 3 }, { 4, 3, 24, 15, 3 }, { 4, 3, 24, 257 * 8, 3 },
        { 3, 4, 24, 16, 6 }, { 4, 3, 24, 16, 0 }
    };
    for (unsigned i = 0; i < sizeof t / sizeof t[0]; i++) {
        CHECK(brute_check(t[i].w, t[i].h, b.weights, t[i].wl, b.table, t[i].tl)
              == t[i].code);
        if (t[i].code == 0)
            continue;
        CHECK(brute_run(t[i].w, t[i].h, b.weights, t[i].wl, b.table, t[i].tl,
                        q, 8, b.answer, 8) == t[i].code);
        CHECK(brute_list(t[i].w, t[i].h, b.weights, t[i].wl, b.table, t[i].tl,
                         b.room, sizeof b.room) == t[i].code);
        CHECK(memcmp(&b, &was, sizeof b) == 0);
    }
}

static void block_edges(void)
{
    static uint8_t q[513 * 8 + 8], a[513 * 8 + 8], old[sizeof a];
    struct bench b, was;
    cleared(&b, 4, 3, 2);
    was = b;
    memset(a, 0x77, sizeof a);
    memcpy(old, a, sizeof a);
#define RUN(ql, al) brute_run(4, 3, b.weights, 24, b.table, 16, q, ql, a, al)
    CHECK(RUN(513 * 8, 513 * 8) == 4);
    CHECK(RUN(512 * 8 + 1, 512 * 8 + 1) == 4);
    CHECK(RUN(7, 7) == 4 && RUN(9, 8) == 4 && RUN(12, 0) == 4);
    CHECK(RUN(UINT64_MAX - 7, UINT64_MAX - 7) == 4);
    CHECK(RUN(8, 7) == 5 && RUN(8, 9) == 5 && RUN(8, 16) == 5 && RUN(8, 0) == 5);
    CHECK(RUN(0, 8) == 5 && RUN(0, 1) == 5);
    CHECK(memcmp(&b, &was, sizeof b) == 0 && memcmp(a, old, sizeof a) == 0);
    CHECK(RUN(0, 0) == 0);
    CHECK(memcmp(&b, &was, sizeof b) == 0 && memcmp(a, old, sizeof a) == 0);
    set_weight(&b, 0, 0, 2);
    was = b;
    CHECK(RUN(0, 0) == 6 && RUN(0, 8) == 5 && RUN(1, 8) == 4 && RUN(8, 8) == 6);
    CHECK(memcmp(&b, &was, sizeof b) == 0 && memcmp(a, old, sizeof a) == 0);
    set_weight(&b, 0, 0, 1);
    /* 512: place id 1, remove it, place it and so on; all accepted. */
    for (unsigned i = 0; i < 512; i++) {
        uint8_t put[8] = { 1, 0, 1, 0, 2, 1, 0, 0 }, take[8] = { 2, 0, 1, 0, 0, 0, 0, 0 };
        memcpy(q + 8 * i, i % 2 == 0 ? put : take, 8);
    }
    CHECK(RUN(512 * 8, 512 * 8) == (uint64_t)512 << 16);
    for (unsigned i = 0; i < 512; i++) {
        uint8_t want[8] = { 0, i % 2 == 0 ? 1 : 2, 1, 0, 0, 2, 2, 1 };
        CHECK(memcmp(a + 8 * i, want, 8) == 0);
    }
    CHECK(memcmp(a + 512 * 8, old + 512 * 8, 16) == 0);
#undef RUN
}

static void slot_edges(void)
{
    struct bench b;
    cleared(&b, 64, 64, 256);
    for (unsigned i = 0; i < 256; i++)
        CHECK(pin(&b, 1000 + i, 1, 1, i % 64, 10 + i / 64) == 0);
    CHECK(check_call(&b) == (uint64_t)256 << 16);
    CHECK(pin(&b, 5, 1, 1, 0, 0) == 19);
    CHECK(place(&b, 5, 1, 1, 0) == 19);
    CHECK(removed(&b, 1100) == 0 && at(&b, 100 % 64, 10 + 100 / 64, 1, 1));
    CHECK(pin(&b, 5, 1, 1, 0, 0) == 0 && slot_is(&b, 100, 5, 0, 0, 1, 1));
    CHECK(exchange(&b, 5, 2, 1, 0) == 0 && slot_is(&b, 100, 5, 0, 9, 2, 1));
}

static void request_edges(void)
{
    struct bench b;
    cleared(&b, 3, 2, 2);
    CHECK(pin(&b, 1, 3, 1, 0, 0) == 0 && at(&b, 0, 0, 3, 1));
    cleared(&b, 3, 2, 2);
    CHECK(pin(&b, 1, 3, 1, 1, 0) == 18);
    CHECK(place(&b, 1, 200, 1, 0) == 20);
    CHECK(place(&b, 1, 1, 200, 0) == 20);
    CHECK(place(&b, 1, 255, 255, 2) == 20);
    CHECK(pin(&b, 1, 100, 1, 200, 0) == 18);     /* 200 + 100 does not wrap */
    CHECK(pin(&b, 1, 2, 1, 255, 0) == 18);
    CHECK(pin(&b, 1, 1, 2, 0, 255) == 18);
    CHECK(pin(&b, 1, 1, 1, 3, 0) == 18 && pin(&b, 1, 1, 1, 0, 2) == 18);
    CHECK(pin(&b, 1, 1, 1, 2, 1) == 0);
}

/* ---- room ---------------------------------------------------------------- */

static void room_edges(void)
{
    struct bench b;
    uint8_t room[64], old[64];
    case_d_of(&b);                      /* 4 entries, 3 corners */
    uint64_t want = ((uint64_t)4 << 16) + ((uint64_t)3 << 32);
#define LIST(n) brute_list(3, 3, b.weights, 18, b.table, 24, room, n)
    for (unsigned n = 0; n <= 45; n++) {
        memset(room, 0x39, sizeof room);
        memcpy(old, room, sizeof room);
        CHECK(LIST(n) == (n < 32 ? 7 : want));
        unsigned kept = n < 32 ? 0 : 32;
        CHECK(memcmp(room + kept, old + kept, sizeof room - kept) == 0);
        if (n >= 32)
            CHECK(memcmp(room, "\0\0\3\1\3\0\0\0\0\0\1\3\3\0\0\0"
                         "\0\2\3\1\3\0\0\0\2\0\1\3\3\0\0\0", 32) == 0);
    }
    set_weight(&b, 0, 0, 3);
    memcpy(old, room, sizeof room);
    CHECK(LIST(0) == 6);                /* lowest first */
    CHECK(memcmp(room, old, sizeof room) == 0);
#undef LIST
    cleared(&b, 64, 64, 1);             /* an area of two bytes */
    CHECK(counts(&b, 1, 1) && entry_is(&b, 0, 0, 0, 64, 64) && b.room[5] == 16);
}

/* ---- a surface stands: each condition failing alone ----------------------- */

/* 4x3, five slots: id 1 (0,2,2,1), id 2 (0,0,3,2), id 515 (3,1,1,1). */
static void sample(struct bench *b)
{
    cleared(b, 4, 3, 5);
    CHECK(place(b, 1, 2, 1, 2) == 0 && place(b, 2, 3, 2, 0) == 0);
    CHECK(pin(b, 515, 1, 1, 3, 1) == 0);
    CHECK(check_call(b) == (uint64_t)3 << 16);
}

/* The surface does not stand, in all three calls that look, and nothing is
 * written. */
static void falls(int line, struct bench *b)
{
    struct bench was = *b;
    uint8_t q[8] = { 2, 0, 1, 0, 0, 0, 0, 0 };
    check_at(line, check_call(b) == 6, "check gives 6");
    check_at(line, brute_run(b->w, b->h, b->weights, weights_len(b), b->table,
                             table_len(b), q, 8, b->answer, 8) == 6, "run gives 6");
    check_at(line, brute_list(b->w, b->h, b->weights, weights_len(b), b->table,
                              table_len(b), b->room, sizeof b->room) == 6,
             "list gives 6");
    check_at(line, memcmp(b, &was, sizeof was) == 0, "nothing written");
    check_at(line, brute_clear(b->w, b->h, b->weights, weights_len(b), b->table,
                               table_len(b)) == 0, "clear does not look");
}
#define FALLS(b) falls(__LINE__, b)

static void put_slot(struct bench *b, unsigned i, unsigned id, unsigned x,
                     unsigned y, unsigned w, unsigned h)
{
    uint8_t s[8] = { (uint8_t)(id % 256), (uint8_t)(id / 256), (uint8_t)x,
                     (uint8_t)y, (uint8_t)w, (uint8_t)h, 0, 0 };
    memcpy(b->table + 8 * i, s, 8);
}

static void slots_fall(void)
{
    struct bench b;
    for (unsigned i = 2; i < 8; i++) {      /* id 0 with another byte set: kind 1 too */
        sample(&b);
        b.table[8 * 4 + i] = 1;
        FALLS(&b);
    }
    sample(&b); b.table[0] = 0; FALLS(&b);  /* a used slot's id gone */
    sample(&b); b.table[8 * 2] = 0;         /* 512 is still an id */
    CHECK(check_call(&b) == (uint64_t)3 << 16);
    sample(&b); put_slot(&b, 3, 9, 3, 2, 0, 1); FALLS(&b);     /* w 0 */
    sample(&b); put_slot(&b, 3, 9, 3, 2, 1, 0); FALLS(&b);     /* h 0 */
    sample(&b); put_slot(&b, 3, 9, 0, 0, 0, 0); FALLS(&b);     /* an id alone */
    sample(&b); put_slot(&b, 3, 9, 4, 0, 1, 1); FALLS(&b);     /* x + w = W + 1 */
    sample(&b); put_slot(&b, 3, 9, 0, 3, 1, 1); FALLS(&b);     /* y + h = H + 1 */
    sample(&b); put_slot(&b, 3, 9, 255, 0, 2, 1); FALLS(&b);   /* the byte sum is 1 */
    sample(&b); put_slot(&b, 3, 9, 0, 255, 1, 2); FALLS(&b);
    sample(&b); b.table[8 + 7] = 128; FALLS(&b);               /* the spare byte */
    /* Off the surface by one, the weights as if cut off there. */
    cleared(&b, 3, 1, 1);
    put_slot(&b, 0, 1, 2, 0, 2, 1); set_weight(&b, 2, 0, -2); FALLS(&b);
    cleared(&b, 3, 1, 1);
    put_slot(&b, 0, 1, 2, 0, 1, 1); set_weight(&b, 2, 0, -1);
    CHECK(check_call(&b) == (uint64_t)1 << 16);
    cleared(&b, 1, 3, 1);
    put_slot(&b, 0, 1, 0, 2, 1, 2); set_weight(&b, 0, 2, -1); FALLS(&b);
    cleared(&b, 1, 3, 1);
    put_slot(&b, 0, 1, 0, 2, 1, 1); set_weight(&b, 0, 2, -1);
    CHECK(check_call(&b) == (uint64_t)1 << 16);
}

/* "A surface stands with kinds 0 and 1 and every other spare byte zero." Two
 * tests: not the sum of both bytes, which in a byte may wrap. */
static void kinds_fall(void)
{
    struct bench b;
    unsigned kinds[] = { 2, 3, 128, 254, 255 };
    for (unsigned slot = 0; slot < 3; slot++) {
        sample(&b); b.table[8 * slot + 6] = 1;                  /* stands */
        CHECK(check_call(&b) == (uint64_t)3 << 16);
        for (unsigned i = 0; i < 5; i++) {
            sample(&b); b.table[8 * slot + 6] = (uint8_t)kinds[i]; FALLS(&b);
        }
        for (unsigned kind = 0; kind < 2; kind++)
            for (unsigned spare = 1; spare < 256; spare += 127) {   /* 1, 128, 255 */
                sample(&b);
                b.table[8 * slot + 6] = (uint8_t)kind;
                b.table[8 * slot + 7] = (uint8_t)spare;
                FALLS(&b);
            }
        sample(&b); b.table[8 * slot + 6] = 255; b.table[8 * slot + 7] = 1; FALLS(&b);
    }
    sample(&b); b.table[6] = b.table[14] = b.table[22] = 1;     /* blocks alone: stands */
    CHECK(check_call(&b) == (uint64_t)3 << 16 && removed(&b, 2) == 23);
    sample(&b); b.table[8 * 3 + 6] = 1; FALLS(&b);              /* no free slot: kind 1 alone */
    sample(&b); b.table[8 * 3 + 7] = 1; FALLS(&b);
    sample(&b); put_slot(&b, 3, 9, 0, 0, 0, 0); b.table[8 * 3 + 6] = 1; FALLS(&b);
}

/* "Blocks count as modules": one that shares a cell or an id, or is not in the
 * weights, falls as a module does. */
static void hard_falls(void)
{
    struct bench b;
    sample(&b); put_slot(&b, 3, 9, 3, 1, 1, 1); b.table[8 * 3 + 6] = 1; FALLS(&b);
    sample(&b); put_slot(&b, 3, 1, 3, 2, 1, 1); set_weight(&b, 3, 2, -1); b.table[8 * 3 + 6] = 1;
    FALLS(&b);
    sample(&b); put_slot(&b, 3, 9, 3, 2, 1, 1); b.table[8 * 3 + 6] = 1; FALLS(&b);
    sample(&b); put_slot(&b, 3, 9, 3, 2, 1, 1); set_weight(&b, 3, 2, -1); b.table[8 * 3 + 6] = 1;
    CHECK(check_call(&b) == (uint64_t)4 << 16);
}

static void ids_and_cells_fall(void)
{
    struct bench b;
    sample(&b);                             /* equal ids, else sound */
    put_slot(&b, 3, 1, 3, 2, 1, 1); set_weight(&b, 3, 2, -1);
    FALLS(&b);
    sample(&b);                             /* another id: stands */
    put_slot(&b, 3, 257, 3, 2, 1, 1); set_weight(&b, 3, 2, -1);
    CHECK(check_call(&b) == (uint64_t)4 << 16);
    sample(&b);                             /* the same module twice */
    put_slot(&b, 3, 9, 3, 1, 1, 1);
    FALLS(&b);
    cleared(&b, 3, 1, 2);                   /* one cell shared: weights of either */
    put_slot(&b, 0, 1, 0, 0, 2, 1); put_slot(&b, 1, 2, 1, 0, 2, 1);
    set_weight(&b, 0, 0, -2); set_weight(&b, 1, 0, -1); set_weight(&b, 2, 0, -1);
    FALLS(&b);
    cleared(&b, 3, 1, 2);
    put_slot(&b, 0, 1, 0, 0, 2, 1); put_slot(&b, 1, 2, 1, 0, 2, 1);
    set_weight(&b, 0, 0, -2); set_weight(&b, 1, 0, -2); set_weight(&b, 2, 0, -1);
    FALLS(&b);
    cleared(&b, 3, 1, 2);                   /* side by side: stands */
    put_slot(&b, 0, 1, 0, 0, 1, 1); put_slot(&b, 1, 2, 1, 0, 2, 1);
    set_weight(&b, 0, 0, -1); set_weight(&b, 1, 0, -2); set_weight(&b, 2, 0, -1);
    CHECK(check_call(&b) == (uint64_t)2 << 16);
}

static void weights_fall(void)
{
    struct bench b;
    for (unsigned y = 0; y < 3; y++)
        for (unsigned x = 0; x < 4; x++) {
            int off[] = { 1, -1, 256, -256, 32767, -32767 };
            for (unsigned i = 0; i < 6; i++) {
                sample(&b);
                set_weight(&b, x, y, weight(&b, x, y) + off[i]);
                FALLS(&b);
            }
            sample(&b);
            set_weight(&b, x, y, 0);
            FALLS(&b);
            sample(&b);
            set_weight(&b, x, y, -weight(&b, x, y));
            FALLS(&b);
        }
    /* A used slot freed in the table only; a module in the table only. */
    sample(&b); memset(b.table + 16, 0, 8); FALLS(&b);
    cleared(&b, 2, 2, 1); put_slot(&b, 0, 1, 0, 0, 1, 1); FALLS(&b);
    /* "incremented by its height" is not the weight below a module. */
    cleared(&b, 1, 3, 1);
    CHECK(pin(&b, 1, 1, 1, 0, 1) == 0 && weight(&b, 0, 2) == 1);
    set_weight(&b, 0, 2, 4); FALLS(&b);
}

/* ---- each request code, and just beside it ------------------------------- */

static void codes_11_to_14(void)
{
    struct bench b;
    unsigned unknown[] = { 0, 5, 7, 8, 128, 255 }, known[] = { 1, 2, 3, 4, 6 };
    for (unsigned i = 0; i < 6; i++) {
        cleared(&b, 4, 3, 2);
        CHECK(ask8(&b, unknown[i], 0, 1, 1, 1, 0, 0) == 11);
        CHECK(ask8(&b, unknown[i], 9, 0, 0, 0, 9, 9) == 11);
    }
    for (unsigned i = 0; i < 5; i++) {
        cleared(&b, 4, 3, 2);
        CHECK(ask8(&b, known[i], 0, 1, 1, 1, 0, 0) != 11);
    }
    cleared(&b, 4, 3, 2);                                   /* 12 */
    CHECK(ask8(&b, 1, 9, 0, 0, 0, 1, 0) == 12 && ask8(&b, 1, 0, 1, 1, 1, 0, 1) == 12);
    CHECK(ask8(&b, 1, 0, 1, 1, 1, 0, 0) == 0);
    CHECK(ask8(&b, 2, 1, 1, 0, 0, 0, 0) == 12 && ask8(&b, 2, 0, 1, 1, 0, 0, 0) == 12);
    CHECK(ask8(&b, 2, 0, 1, 0, 1, 0, 0) == 12 && ask8(&b, 2, 0, 1, 0, 0, 1, 0) == 12);
    CHECK(ask8(&b, 2, 0, 1, 0, 0, 0, 1) == 12 && ask8(&b, 2, 0, 0, 0, 0, 0, 1) == 12);
    CHECK(ask8(&b, 4, 3, 1, 1, 1, 1, 0) == 12 && ask8(&b, 4, 0, 1, 1, 1, 0, 255) == 12);
    CHECK(ask8(&b, 4, 0, 1, 1, 1, 0, 0) == 0);
    CHECK(ask8(&b, 2, 0, 1, 0, 0, 0, 0) == 0);
    CHECK(ask8(&b, 3, 1, 0, 0, 0, 1, 1) == 12 && ask8(&b, 3, 0, 1, 1, 1, 1, 1) == 0);
    CHECK(ask8(&b, 1, 3, 0, 1, 1, 0, 0) == 13);             /* 13 */
    CHECK(ask8(&b, 1, 255, 2, 1, 1, 0, 0) == 13 && ask8(&b, 1, 2, 2, 1, 1, 0, 0) == 0);
    CHECK(ask8(&b, 4, 3, 0, 1, 1, 0, 0) == 13 && ask8(&b, 4, 2, 2, 1, 1, 0, 0) == 0);
    cleared(&b, 4, 3, 2);                                   /* 14 */
    CHECK(place(&b, 0, 0, 0, 0) == 14 && removed(&b, 0) == 14);
    CHECK(pin(&b, 0, 0, 0, 9, 9) == 14 && exchange(&b, 0, 0, 0, 0) == 14);
    CHECK(place(&b, 256, 1, 1, 0) == 0 && slot_is(&b, 0, 256, 0, 2, 1, 1));
}

static void codes_15_to_17(void)
{
    struct bench b;
    cleared(&b, 4, 3, 3);
    CHECK(place(&b, 300, 1, 1, 0) == 0);
    CHECK(place(&b, 300, 0, 1, 0) == 15 && pin(&b, 300, 0, 9, 9, 9) == 15);
    CHECK(place(&b, 44, 1, 1, 0) == 0 && pin(&b, 299, 1, 1, 3, 0) == 0);
    CHECK(removed(&b, 301) == 16 && exchange(&b, 301, 0, 0, 0) == 16);  /* 16 */
    CHECK(exchange(&b, 300, 1, 1, 0) == 0 && removed(&b, 300) == 0);
    CHECK(removed(&b, 300) == 16 && exchange(&b, 300, 1, 1, 0) == 16);
    CHECK(place(&b, 300, 0, 1, 0) == 17 && place(&b, 300, 1, 0, 0) == 17); /* 17 */
    CHECK(pin(&b, 300, 0, 1, 9, 9) == 17 && pin(&b, 300, 1, 0, 9, 9) == 17);
    CHECK(exchange(&b, 44, 0, 1, 0) == 17 && exchange(&b, 44, 1, 0, 0) == 17);
    CHECK(pin(&b, 300, 1, 1, 9, 9) == 18 && place(&b, 300, 1, 1, 0) == 0);
    CHECK(place(&b, 301, 0, 1, 0) == 17);       /* full table: still 17 */
}

static void codes_18_to_21(void)
{
    struct bench b;
    cleared(&b, 4, 3, 1);
    CHECK(pin(&b, 1, 2, 2, 3, 1) == 18 && pin(&b, 1, 2, 2, 2, 2) == 18);   /* 18 */
    CHECK(pin(&b, 1, 2, 2, 2, 1) == 0 && slot_is(&b, 0, 1, 2, 1, 2, 2));
    CHECK(pin(&b, 2, 1, 1, 4, 0) == 18);        /* a full table: 18 before 19 */
    CHECK(pin(&b, 2, 1, 1, 2, 1) == 19);        /* 19 before 21 */
    CHECK(place(&b, 2, 200, 1, 0) == 19);       /* 19 before 20 */
    CHECK(place(&b, 2, 1, 1, 0) == 19);
    CHECK(exchange(&b, 1, 2, 3, 0) == 0 && at(&b, 0, 0, 2, 3));     /* needs no free slot */
    CHECK(exchange(&b, 1, 5, 1, 0) == 20 && exchange(&b, 1, 3, 1, 0) == 20);    /* 20 */
    CHECK(exchange(&b, 1, 2, 3, 1) == 0 && at(&b, 2, 0, 2, 3));
    CHECK(exchange(&b, 1, 1, 1, 2) == 0 && at(&b, 0, 2, 1, 1));
    cleared(&b, 4, 3, 3);
    CHECK(pin(&b, 1, 1, 1, 1, 1) == 0);
    CHECK(place(&b, 2, 3, 2, 0) == 20 && place(&b, 2, 2, 3, 0) == 0 && at(&b, 2, 0, 2, 3));
    CHECK(pin(&b, 3, 2, 1, 0, 1) == 21);        /* 21 */
    CHECK(pin(&b, 3, 2, 2, 0, 0) == 21 && pin(&b, 3, 2, 2, 0, 1) == 21);
    CHECK(pin(&b, 3, 1, 1, 2, 0) == 21);
    CHECK(pin(&b, 3, 2, 1, 0, 2) == 0 && pin(&b, 4, 1, 1, 0, 0) == 19);
}

/* ---- operation 6, and 23 ------------------------------------------------------ */

/* "with a pin's refusals in the same order": 12, 14, 15, 17, 18, 19, 21. Each
 * request breaks the rules of all codes after its own that it can. */
static void codes_of_set(void)
{
    struct bench b;
    cleared(&b, 4, 3, 2);
    CHECK(pin(&b, 7, 1, 1, 1, 1) == 0);
    CHECK(ask8(&b, 6, 1, 0, 0, 0, 9, 9) == 12 && ask8(&b, 6, 255, 1, 1, 1, 0, 0) == 12);
    CHECK(set(&b, 0, 0, 0, 9, 9) == 14 && set(&b, 7, 0, 9, 9, 9) == 15);
    CHECK(set(&b, 1, 0, 1, 9, 9) == 17 && set(&b, 1, 1, 0, 9, 9) == 17);
    CHECK(set(&b, 1, 2, 1, 3, 0) == 18 && set(&b, 1, 1, 2, 0, 2) == 18);
    CHECK(set(&b, 1, 2, 1, 255, 0) == 18 && set(&b, 1, 1, 2, 0, 255) == 18);
    CHECK(set(&b, 1, 2, 1, 0, 1) == 21 && set(&b, 1, 2, 2, 0, 0) == 21);
    CHECK(set(&b, 1, 4, 3, 0, 0) == 21);
    CHECK(set(&b, 1, 2, 1, 2, 0) == 0 && at(&b, 2, 0, 2, 1) && hard_is(&b, 1, 1, 2, 0, 2, 1));
    CHECK(set(&b, 2, 0, 1, 9, 9) == 17 && set(&b, 2, 1, 1, 4, 0) == 18);  /* a full table */
    CHECK(set(&b, 2, 1, 1, 1, 1) == 19 && set(&b, 2, 1, 1, 0, 0) == 19);
    CHECK(set(&b, 1, 0, 0, 9, 9) == 15);
}

/* "23, remove or exchange of a block, follows 16": after 12, 13, 14 and 16,
 * before 17 and 20; beside it the same of a module. */
static void codes_of_hard(void)
{
    struct bench b;
    cleared(&b, 4, 3, 3);
    CHECK(set(&b, 5, 2, 1, 1, 1) == 0 && pin(&b, 261, 1, 1, 0, 0) == 0);
    CHECK(ask8(&b, 2, 0, 5, 0, 1, 0, 0) == 12 && ask8(&b, 4, 0, 5, 1, 1, 0, 1) == 12);
    CHECK(ask8(&b, 4, 3, 5, 1, 1, 0, 0) == 13 && exchange(&b, 0, 0, 0, 0) == 14);
    CHECK(removed(&b, 6) == 16 && exchange(&b, 6, 0, 0, 0) == 16);
    CHECK(removed(&b, 5) == 23);
    for (unsigned rule = 0; rule < 3; rule++) {
        CHECK(exchange(&b, 5, 1, 1, rule) == 23 && exchange(&b, 5, 2, 1, rule) == 23);
        CHECK(exchange(&b, 5, 0, 0, rule) == 23 && exchange(&b, 5, 0, 1, rule) == 23);  /* 17 */
        CHECK(exchange(&b, 5, 1, 0, rule) == 23 && exchange(&b, 5, 200, 1, rule) == 23); /* 20 */
        CHECK(exchange(&b, 261, 0, 0, rule) == 17 && exchange(&b, 261, 200, 1, rule) == 20);
        CHECK(exchange(&b, 261, 1, 1, rule) == 0);
    }
    CHECK(removed(&b, 261) == 0 && removed(&b, 5) == 23);
}

/* The answers and weights of a pin and of a set with the same fields are equal,
 * but for the operation; the tables, but for the kind. */
static int set_is_as_pin(const struct bench *b, const uint8_t fields[8])
{
    struct bench p = *b, s = *b;
    uint8_t q[8];
    memcpy(q, fields, 8);
    q[0] = 3;
    brute_run(b->w, b->h, p.weights, weights_len(b), p.table, table_len(b), q, 8, p.answer, 8);
    q[0] = 6;
    brute_run(b->w, b->h, s.weights, weights_len(b), s.table, table_len(b), q, 8, s.answer, 8);
    int ok = p.answer[1] == 3 && s.answer[1] == 6;
    p.answer[1] = 6;
    for (unsigned i = 0; i < b->slots; i++) {
        uint8_t *was = p.table + 8 * i;
        int is_new = s.answer[0] == 0 && memcmp(was, b->table + 8 * i, 8) != 0;
        was[6] = is_new ? 1 : was[6];
    }
    return ok && memcmp(&p, &s, sizeof p) == 0;
}

/* Every such request with small fields, with a free slot and without. */
static void sets_as_pins(void)
{
    static struct bench b;
    unsigned ids[] = { 0, 7, 8, 9 }, differing = 0;
    for (unsigned slots = 2; slots <= 3; slots++) {
        cleared(&b, 3, 3, slots);
        CHECK(pin(&b, 7, 1, 1, 1, 1) == 0 && set(&b, 8, 1, 2, 2, 0) == 0);
        for (unsigned n = 0; n < 4 * 2 * 5 * 5 * 4 * 4; n++) {
            uint8_t q[8] = { 0, (uint8_t)(n / 4 % 2), (uint8_t)ids[n % 4], 0, (uint8_t)(n / 8 % 5),
                             (uint8_t)(n / 40 % 5), (uint8_t)(n / 200 % 4), (uint8_t)(n / 800) };
            differing += !set_is_as_pin(&b, q);
        }
    }
    CHECK(differing == 0);
}

/* ---- rules, slots, exchanges ---------------------------------------------- */

static void rules_and_ties(void)
{
    struct bench b;
    /* Entries of 5x3 with (2,0,1,2) used: (0,0,2,3), (3,0,2,3), (0,2,5,1). */
    for (unsigned rule = 0; rule < 3; rule++) {
        cleared(&b, 5, 3, 3);
        CHECK(pin(&b, 1, 1, 2, 2, 0) == 0 && counts(&b, 3, 2));
        CHECK(entry_is(&b, 0, 0, 0, 2, 3) && entry_is(&b, 1, 0, 2, 5, 1)
              && entry_is(&b, 2, 3, 0, 2, 3));
        CHECK(place(&b, 2, 2, 1, rule) == 0);
        CHECK(at(&b, 0, 2, 2, 1));
    }
    /* Rule 1: the second entry of two is the smaller. */
    cleared(&b, 5, 2, 3);
    CHECK(pin(&b, 1, 1, 2, 3, 0) == 0);         /* (0,0,3,2), (4,0,1,2) */
    CHECK(place(&b, 2, 1, 1, 1) == 0 && at(&b, 4, 1, 1, 1));
    CHECK(place(&b, 3, 1, 1, 0) == 0 && at(&b, 4, 0, 1, 1));
    /* Rule 2: lowest first, left only after that. (0,0,3,1), (1,0,2,2). */
    for (unsigned rule = 0; rule < 3; rule++) {
        cleared(&b, 3, 2, 2);
        CHECK(pin(&b, 1, 1, 1, 0, 1) == 0 && place(&b, 2, 1, 1, rule) == 0);
        CHECK(rule == 2 ? at(&b, 1, 1, 1, 1) : at(&b, 0, 0, 1, 1));
    }
}

/* "exchanged for a larger one under its own id, refused, asked again, then removed";
 * it "keeps its slot", 1, though 0 is free. */
static void exchanges(void)
{
    struct bench b;
    cleared(&b, 3, 3, 3);
    CHECK(pin(&b, 1, 1, 1, 0, 0) == 0 && pin(&b, 2, 1, 1, 1, 1) == 0);
    CHECK(removed(&b, 1) == 0 && at(&b, 0, 0, 1, 1) && b.table[0] == 0);
    CHECK(exchange(&b, 2, 3, 1, 0) == 0 && at(&b, 0, 0, 3, 1));
    CHECK(slot_is(&b, 0, 0, 0, 0, 0, 0) && slot_is(&b, 1, 2, 0, 0, 3, 1));
    CHECK(slot_is(&b, 2, 0, 0, 0, 0, 0) && check_call(&b) == (uint64_t)1 << 16);
    CHECK(exchange(&b, 2, 3, 3, 0) == 20 && exchange(&b, 2, 3, 3, 0) == 20);
    CHECK(slot_is(&b, 1, 2, 0, 0, 3, 1));
    CHECK(exchange(&b, 2, 3, 2, 0) == 0 && slot_is(&b, 1, 2, 0, 1, 3, 2));
    CHECK(removed(&b, 2) == 0 && at(&b, 0, 1, 3, 2));
    CHECK(counts(&b, 1, 1) && check_call(&b) == 0);
    CHECK(place(&b, 9, 1, 1, 0) == 0 && slot_is(&b, 0, 9, 0, 2, 1, 1));
}

/* "the old one goes when the new one stands" (order 3): beside its old place, of its
 * old size too, and with one slot in all, so that none is free. */
static void exchange_moves(void)
{
    struct bench b;
    for (unsigned rule = 0; rule < 3; rule++) {
        cleared(&b, 3, 1, 1);
        CHECK(pin(&b, 1, 1, 1, 0, 0) == 0);
        CHECK(exchange(&b, 1, 2, 1, rule) == 0 && at(&b, 1, 0, 2, 1));
        CHECK(row_is(&b, 0, (int[]){ 1, -2, -1 }) && slot_is(&b, 0, 1, 1, 0, 2, 1));
        CHECK(exchange(&b, 1, 2, 1, rule) == 20 && exchange(&b, 1, 1, 1, rule) == 0);
        CHECK(row_is(&b, 0, (int[]){ -1, 1, 1 }) && slot_is(&b, 0, 1, 0, 0, 1, 1));
        CHECK(exchange(&b, 1, 1, 1, rule) == 0 && at(&b, 1, 0, 1, 1));
        CHECK(row_is(&b, 0, (int[]){ 1, -1, 1 }) && slot_is(&b, 0, 1, 1, 0, 1, 1));
        CHECK(exchange(&b, 1, 2, 1, rule) == 20 && place(&b, 2, 1, 1, rule) == 19);
        CHECK(exchange(&b, 1, 1, 1, rule) == 0 && at(&b, 0, 0, 1, 1));
    }
}

/* "the new one may not cover a single old cell" (order 3): each would fit without the
 * old module; on a full surface there is no exchange at all. */
static void exchange_stays(void)
{
    struct bench b;
    for (unsigned rule = 0; rule < 3; rule++) {
        cleared(&b, 2, 1, 2);
        CHECK(pin(&b, 1, 1, 1, 0, 0) == 0 && exchange(&b, 1, 2, 1, rule) == 20);
        CHECK(removed(&b, 1) == 0 && place(&b, 1, 2, 1, rule) == 0);
        CHECK(exchange(&b, 1, 1, 1, rule) == 20 && exchange(&b, 1, 2, 1, rule) == 20);
        cleared(&b, 4, 3, 2);                   /* the same size, one column short */
        CHECK(pin(&b, 1, 2, 3, 1, 0) == 0 && exchange(&b, 1, 2, 3, rule) == 20);
        CHECK(exchange(&b, 1, 2, 1, rule) == 20 && exchange(&b, 1, 1, 3, rule) == 0);
        cleared(&b, 2, 2, 4);                   /* full, of one module and of four */
        CHECK(pin(&b, 1, 2, 2, 0, 0) == 0 && exchange(&b, 1, 1, 1, rule) == 20);
        CHECK(removed(&b, 1) == 0 && pin(&b, 1, 1, 1, 0, 0) == 0 && pin(&b, 2, 1, 1, 1, 0) == 0);
        CHECK(pin(&b, 3, 1, 1, 0, 1) == 0 && exchange(&b, 1, 2, 1, rule) == 20);
        CHECK(set(&b, 4, 1, 1, 1, 1) == 0 && exchange(&b, 1, 1, 1, rule) == 20);
    }
}

/* The rule chooses from the list of the surface with the old module. Here it is 1x1
 * at (0,2), and a block fills column 2: (0,0,2,2), (1,0,1,3), (3,0,2,3). Without the
 * old module the list has (0,0,2,3) and (3,0,2,3), so that by each rule the place is
 * (0,2), which is the old one's; and the first beside it would be (3,2). */
static void exchange_chosen(void)
{
    struct bench b;
    const unsigned want[3][2] = { { 0, 1 }, { 1, 2 }, { 1, 2 } };
    for (unsigned rule = 0; rule < 3; rule++) {
        cleared(&b, 5, 3, 3);
        CHECK(set(&b, 9, 1, 3, 2, 0) == 0 && counts(&b, 2, 2));
        CHECK(entry_is(&b, 0, 0, 0, 2, 3) && entry_is(&b, 1, 3, 0, 2, 3));
        CHECK(pin(&b, 1, 1, 1, 0, 2) == 0 && counts(&b, 3, 4));
        CHECK(entry_is(&b, 0, 0, 0, 2, 2) && entry_is(&b, 1, 1, 0, 1, 3));
        CHECK(entry_is(&b, 2, 3, 0, 2, 3));
        CHECK(exchange(&b, 1, 1, 1, rule) == 0 && at(&b, want[rule][0], want[rule][1], 1, 1));
        CHECK(slot_is(&b, 1, 1, want[rule][0], want[rule][1], 1, 1));
    }
    cleared(&b, 5, 3, 3);                       /* and by which the entries' sizes say */
    CHECK(set(&b, 9, 1, 3, 2, 0) == 0 && pin(&b, 1, 1, 1, 0, 2) == 0);
    CHECK(exchange(&b, 1, 2, 3, 0) == 0 && at(&b, 3, 0, 2, 3));
    CHECK(exchange(&b, 1, 2, 3, 1) == 0 && at(&b, 0, 0, 2, 3));
}

/* The weights are those of the modules then placed: below the old place the count goes
 * on from above, and below the new one it starts anew. */
static void exchange_weights(void)
{
    struct bench b;
    cleared(&b, 1, 5, 1);
    CHECK(pin(&b, 1, 1, 1, 0, 2) == 0 && exchange(&b, 1, 1, 1, 0) == 0 && at(&b, 0, 1, 1, 1));
    const int above[] = { 1, -1, 1, 2, 3 }, below[] = { 1, 2, 3, 4, -1 };
    for (unsigned y = 0; y < 5; y++)
        CHECK(weight(&b, 0, y) == above[y]);
    CHECK(exchange(&b, 1, 1, 1, 2) == 0 && at(&b, 0, 4, 1, 1));
    for (unsigned y = 0; y < 5; y++)
        CHECK(weight(&b, 0, y) == below[y]);

    cleared(&b, 3, 4, 2);                       /* one column of the old in common */
    CHECK(pin(&b, 1, 2, 1, 0, 1) == 0 && pin(&b, 2, 1, 1, 1, 3) == 0);
    CHECK(exchange(&b, 1, 2, 2, 0) == 20 && exchange(&b, 1, 1, 2, 2) == 0 && at(&b, 0, 2, 1, 2));
    CHECK(row_is(&b, 0, (int[]){ 1, 1, 1 }) && row_is(&b, 1, (int[]){ 2, 2, 2 }));
    CHECK(row_is(&b, 2, (int[]){ -1, 3, 3 }) && row_is(&b, 3, (int[]){ -1, -1, 4 }));
    CHECK(exchange(&b, 1, 3, 1, 0) == 0 && at(&b, 0, 1, 3, 1));
    CHECK(row_is(&b, 0, (int[]){ 1, 1, 1 }) && row_is(&b, 1, (int[]){ -3, -2, -1 }));
    CHECK(row_is(&b, 2, (int[]){ 1, 1, 1 }) && row_is(&b, 3, (int[]){ 2, -1, 2 }));
}

/* ---- a whole block on one surface equals its requests one by one ---------- */

static void block_in_turn(void)
{
    struct bench a, b;
    uint8_t q[6 * 8] = {
        3, 0, 7, 0, 1, 1, 1, 1,  1, 0, 8, 0, 2, 2, 0, 0,  4, 2, 7, 0, 2, 1, 0, 0,
        9, 1, 2, 3, 4, 5, 6, 7,  2, 0, 7, 0, 0, 0, 0, 0,  1, 0, 8, 0, 2, 2, 0, 0 };
    uint8_t answers[6 * 8], want[6 * 8];
    cleared(&a, 3, 3, 2);
    cleared(&b, 3, 3, 2);
    CHECK(brute_run(3, 3, a.weights, 18, a.table, 16, q, 48, answers, 48)
          == (uint64_t)4 << 16);
    CHECK(memcmp(answers + 16, "\0\4\7\0\0\2\2\1", 8) == 0);
    for (unsigned i = 0; i < 6; i++)
        brute_run(3, 3, b.weights, 18, b.table, 16, q + 8 * i, 8, want + 8 * i, 8);
    CHECK(memcmp(answers, want, 48) == 0);
    CHECK(memcmp(a.weights, b.weights, 18) == 0 && memcmp(a.table, b.table, 16) == 0);
    CHECK(memcmp(answers + 8, "\24\1\10\0\0\0\0\0", 8) == 0);
    CHECK(memcmp(answers + 24, "\13\11\2\3\0\0\0\0", 8) == 0);
}

/* The same with a block among the modules: set; refused on it, of it, under its
 * id; placed beside it. */
static void hard_in_turn(void)
{
    struct bench b;
    uint8_t answers[8 * 8], q[8 * 8] = {
        6, 0, 5, 0, 2, 1, 1, 1,  3, 0, 6, 0, 1, 1, 2, 1,  2, 0, 5, 0, 0, 0, 0, 0,
        4, 1, 5, 0, 0, 0, 0, 0,  6, 0, 5, 0, 1, 1, 0, 0,  1, 0, 1, 0, 2, 1, 0, 0,
        2, 0, 1, 0, 0, 0, 0, 0,  6, 0, 1, 0, 1, 3, 3, 0 };
    const uint8_t want[8 * 8] = {
        0, 6, 5, 0, 1, 1, 2, 1,  21, 3, 6, 0, 0, 0, 0, 0,  23, 2, 5, 0, 0, 0, 0, 0,
        23, 4, 5, 0, 0, 0, 0, 0, 15, 6, 5, 0, 0, 0, 0, 0,  0, 1, 1, 0, 0, 0, 2, 1,
        0, 2, 1, 0, 0, 0, 2, 1,  0, 6, 1, 0, 3, 0, 1, 3 };
    cleared(&b, 4, 3, 3);
    CHECK(brute_run(4, 3, b.weights, 24, b.table, 24, q, 64, answers, 64) == (uint64_t)4 << 16);
    CHECK(memcmp(answers, want, 64) == 0);
    CHECK(hard_is(&b, 0, 5, 1, 1, 2, 1) && hard_is(&b, 1, 1, 3, 0, 1, 3));
}

/* ---- the list, word for word, over every filling of small surfaces ------- */

struct rectangle { unsigned x, y, w, h; };

/* All rectangles on the surface with no occupied cell, by looking at cells. */
static unsigned all_empty(unsigned W, unsigned H, unsigned filling, struct rectangle *out)
{
    unsigned n = 0;
    for (unsigned y = 0; y < H; y++)
        for (unsigned x = 0; x < W; x++)
            for (unsigned w = 1; x + w <= W; w++)
                for (unsigned h = 1; y + h <= H; h++) {
                    unsigned occupied = 0;
                    for (unsigned v = y; v < y + h; v++)
                        for (unsigned u = x; u < x + w; u++)
                            occupied += filling >> (v * W + u) & 1;
                    if (occupied == 0)
                        out[n++] = (struct rectangle){ x, y, w, h };
                }
    return n;
}

static int contains(struct rectangle a, struct rectangle b)
{
    return a.x <= b.x && a.y <= b.y && b.x + b.w <= a.x + a.w && b.y + b.h <= a.y + a.h;
}

static int same(struct rectangle a, struct rectangle b)
{
    return a.x == b.x && a.y == b.y && a.w == b.w && a.h == b.h;
}

/* Every pair of empty rectangles compared; the maximal ones are in the list,
 * and the list has that many, in order. */
static int list_is_all(unsigned W, unsigned H, unsigned filling, const struct bench *b)
{
    struct rectangle r[400];
    unsigned n = all_empty(W, H, filling, r), maximal = 0;
    unsigned long before = 0;
    for (unsigned i = 0; i < n; i++) {
        unsigned others = 0, found = 0;
        for (unsigned k = 0; k < n; k++)
            if (!same(r[k], r[i]) && contains(r[k], r[i]))
                others++;
        if (others != 0)
            continue;
        maximal++;
        for (unsigned k = 0; k < first_of(b->listed); k++)
            if (entry_is(b, k, r[i].x, r[i].y, r[i].w, r[i].h))
                found++;
        if (found != 1)
            return 0;
    }
    for (unsigned k = 0; k < first_of(b->listed); k++) {
        const uint8_t *e = b->room + 8 * k;
        unsigned long key = ((e[1] + e[3]) * 100ul + e[0] + e[2]) * 100ul + e[0] + 1ul;
        if (key <= before)
            return 0;
        before = key;
    }
    return maximal == first_of(b->listed);
}

/* A place is accepted exactly when some empty rectangle has its
 * size, for every size and rule. */
static int places_agree(unsigned W, unsigned H, unsigned filling, const struct bench *b)
{
    struct rectangle r[400];
    unsigned n = all_empty(W, H, filling, r);
    for (unsigned w = 1; w <= W + 1; w++)
        for (unsigned h = 1; h <= H + 1; h++) {
            unsigned fits = 0;
            for (unsigned i = 0; i < n; i++)
                fits += r[i].w == w && r[i].h == h;
            struct bench c = *b;
            uint8_t q[8] = { 1, (uint8_t)((w + h + filling) % 3), 99, 1,
                             (uint8_t)w, (uint8_t)h, 0, 0 };
            brute_run(W, H, c.weights, weights_len(&c), c.table, table_len(&c),
                      q, 8, c.answer, 8);
            if ((c.answer[0] == 0) != (fits > 0) || (fits == 0 && c.answer[0] != 20))
                return 0;
        }
    return 1;
}

/* An exchange of this module is answered as a place of another id would be, and the
 * modules are then those of the place and a remove of the old one. */
static int exchange_is_place(const struct bench *b, unsigned slot, const uint8_t q[8])
{
    struct bench e = *b, p = *b;
    uint8_t old = b->table[8 * slot];
    uint8_t one[8] = { 4, q[1], old, 0, q[4], q[5], 0, 0 };
    uint8_t two[16] = { 1, q[1], 99, 1, q[4], q[5], 0, 0, 2, 0, old, 0, 0, 0, 0, 0 }, answers[16];
    brute_run(b->w, b->h, e.weights, weights_len(b), e.table, table_len(b), one, 8, e.answer, 8);
    brute_run(b->w, b->h, p.weights, weights_len(b), p.table, table_len(b), two, 16, answers, 16);
    if (e.answer[0] != answers[0] || memcmp(e.answer + 4, answers + 4, 4) != 0)
        return 0;
    if (answers[0] != 0)
        return memcmp(e.table, b->table, table_len(b)) == 0
            && memcmp(e.weights, b->weights, weights_len(b)) == 0;
    uint8_t want[8] = { old, 0, answers[4], answers[5], answers[6], answers[7], 0, 0 };
    int kept = memcmp(e.table + 8 * slot, want, 8) == 0;
    memcpy(e.table + 8 * slot, b->table + 8 * slot, 8);
    return kept && memcmp(e.table, b->table, table_len(b)) == 0
        && memcmp(e.weights, p.weights, weights_len(b)) == 0;
}

/* Of one module in turn, for every size and rule. */
static int exchanges_agree(unsigned W, unsigned H, unsigned filling, const struct bench *b)
{
    unsigned slot = filling % (unsigned)b->slots, disagree = 0;
    if (b->table[8 * slot] == 0 || b->table[8 * slot + 6] != 0)
        return 1;
    for (unsigned n = 0; n < 3 * (W + 1) * (H + 1); n++) {
        uint8_t q[8] = { 4, (uint8_t)(n % 3), 0, 0, (uint8_t)(n / 3 % (W + 1) + 1),
                         (uint8_t)(n / 3 / (W + 1) + 1), 0, 0 };
        disagree += !exchange_is_place(b, slot, q);
    }
    return disagree == 0;
}

/* All modules and blocks are single cells: row y - 1 is scanned where row y has one. */
static unsigned scanned_above(unsigned W, unsigned H, unsigned filling)
{
    unsigned n = 1;
    for (unsigned y = 1; y < H; y++)
        n += (filling >> y * W & ((1u << W) - 1)) != 0;
    return n;
}

static void every_filling(unsigned W, unsigned H)
{
    static struct bench b;
    unsigned wrong_list = 0, wrong_place = 0, wrong_exchange = 0, wrong_rows = 0, off = 0;
    for (unsigned filling = 0; filling >> (W * H) == 0; filling++) {
        uint8_t q[16 * 8], a[16 * 8];
        unsigned n = 0;
        b.w = W; b.h = H; b.slots = W * H + 1;
        brute_clear(W, H, b.weights, weights_len(&b), b.table, table_len(&b));
        for (unsigned i = 0; i < W * H; i++)
            if (filling >> i & 1) {
                uint8_t p[8] = { (filling + i) % 3 == 0 ? 6 : 3, 0, (uint8_t)(i + 1), 0, 1, 1,
                                 (uint8_t)(i % W), (uint8_t)(i / W) };
                memcpy(q + 8 * n++, p, 8);
            }
        uint64_t r = brute_run(W, H, b.weights, weights_len(&b), b.table,
                               table_len(&b), q, 8 * n, a, 8 * n);
        off += r != (uint64_t)n << 16;
        b.listed = brute_list(W, H, b.weights, weights_len(&b), b.table,
                              table_len(&b), b.room, sizeof b.room);
        off += code_of(b.listed) != 0;
        wrong_list += !list_is_all(W, H, filling, &b);
        wrong_place += !places_agree(W, H, filling, &b);
        wrong_exchange += !exchanges_agree(W, H, filling, &b);
        wrong_rows += scanned(&b) != scanned_above(W, H, filling);
    }
    CHECK(off == 0);
    CHECK(wrong_list == 0);
    CHECK(wrong_place == 0);
    CHECK(wrong_exchange == 0);
    CHECK(wrong_rows == 0);
}

/* ---- the program ----------------------------------------------------------- */

/* The text the program gives for these bytes, fed in pieces of this length. */
static void text_of(const uint8_t *in, size_t count, size_t piece, char *text, size_t room)
{
    static struct program p;
    FILE *f = tmpfile();
    text[0] = 0;
    if (f == NULL)
        return;
    program_start(&p);
    for (size_t i = 0; i < count; i += piece)
        program_feed(&p, in + i, count - i < piece ? count - i : piece, f);
    program_end(&p, f);
    rewind(f);
    text[fread(text, 1, room - 1, f)] = 0;
    fclose(f);
}

static int gives(const uint8_t *in, size_t count, const char *want)
{
    char text[4096];
    int ok = 1;
    for (size_t piece = 1; piece <= 17; piece++) {
        text_of(in, count, piece, text, sizeof text);
        ok = ok && strcmp(text, want) == 0;
    }
    return ok;
}

static void program_example(void)
{
    const uint8_t in[] = {
        5, 0, 0, 0, 4, 3, 0, 0,  1, 2, 1, 0, 2, 1, 0, 0,
        1, 0, 2, 0, 3, 2, 0, 0,  2, 0, 9, 0, 0, 0, 0, 0,  1, 2, 3 };
#define EXAMPLE "0 5 0 0 0 4 3\n0 1 1 0 2 2 1\n0 1 2 0 0 3 2\n16 2 9 0 0 0 0\n" \
                "m 2 2 2 1 2\nm 3 0 1 3 3\ncorners 2 list 2\n"
    CHECK(gives(in, 32, EXAMPLE));
    CHECK(gives(in, 33, EXAMPLE "cut 1\n"));
    CHECK(gives(in, 35, EXAMPLE "cut 3\n"));
#undef EXAMPLE
    CHECK(gives(in, 0, "corners 0 list 0\n"));
    CHECK(gives(in, 7, "corners 0 list 0\ncut 7\n"));
    CHECK(gives(in + 8, 8, "8 1 1 0 0 0 0\ncorners 0 list 0\n"));
}

static void program_clears(void)
{
    const uint8_t in[] = {
        9, 9, 9, 9, 9, 9, 9, 9,  5, 0, 0, 0, 0, 3, 0, 0,  5, 1, 0, 0, 0, 0, 0, 0,
        5, 0, 1, 2, 65, 3, 0, 0, 5, 0, 0, 0, 65, 3, 0, 0, 5, 0, 0, 0, 2, 1, 0, 0,
        3, 0, 1, 1, 1, 1, 0, 0,  5, 0, 0, 0, 2, 65, 0, 0, 5, 0, 0, 0, 3, 3, 0, 9,
        2, 0, 1, 1, 0, 0, 0, 0,  1, 0, 1, 0, 2, 1, 0, 0,  5, 0, 0, 0, 1, 2, 0, 0,
        2, 0, 1, 0, 0, 0, 0, 0,  0, 0, 2, 0, 0, 0, 0, 0 };
    CHECK(gives(in, sizeof in,
        "8 9 2313 0 0 0 0\n1 5 0 0 0 0 0\n12 5 0 0 0 0 0\n12 5 513 0 0 0 0\n"
        "1 5 0 0 0 0 0\n0 5 0 0 0 2 1\n0 3 257 0 0 1 1\n1 5 0 0 0 0 0\n"
        "12 5 0 0 0 0 0\n0 2 257 0 0 1 1\n0 1 1 0 0 2 1\n0 5 0 0 0 1 2\n"
        "16 2 1 0 0 0 0\n11 0 2 0 0 0 0\nm 0 0 1 2 2\ncorners 1 list 1\n"));
}

/* Before the first clear a set is answered 8 as any other operation; the next
 * clear removes the block. */
static void program_sets(void)
{
    const uint8_t in[] = {
        6, 0, 5, 0, 2, 1, 1, 1,  5, 0, 0, 0, 4, 3, 0, 0,  6, 0, 5, 0, 2, 1, 1, 1,
        2, 0, 5, 0, 0, 0, 0, 0,  4, 0, 5, 0, 0, 0, 0, 0,  7, 0, 5, 0, 1, 1, 0, 0,
        5, 0, 0, 0, 0, 3, 0, 0,  2, 0, 5, 0, 0, 0, 0, 0,
        5, 0, 0, 0, 4, 3, 0, 0,  2, 0, 5, 0, 0, 0, 0, 0 };
#define SETS "8 6 5 0 0 0 0\n0 5 0 0 0 4 3\n0 6 5 1 1 2 1\n23 2 5 0 0 0 0\n23 4 5 0 0 0 0\n" \
             "11 7 5 0 0 0 0\n1 5 0 0 0 0 0\n23 2 5 0 0 0 0\n"
    CHECK(gives(in, 8, "8 6 5 0 0 0 0\ncorners 0 list 0\n"));
    CHECK(gives(in, 64, SETS "m 0 0 4 1 4\nm 0 0 1 3 3\nm 0 2 4 1 4\nm 3 0 1 3 3\n"
                "corners 3 list 4\n"));
    CHECK(gives(in, 80, SETS "0 5 0 0 0 4 3\n16 2 5 0 0 0 0\nm 0 0 4 3 12\ncorners 1 list 1\n"));
#undef SETS
}

/* G and then an exchange that moves: the list is that of what is left. */
static void program_exchanges(void)
{
    const uint8_t in[] = {
        5, 0, 0, 0, 3, 3, 0, 0,  3, 0, 7, 0, 1, 1, 1, 1,  4, 2, 7, 0, 2, 2, 0, 0,
        4, 0, 7, 0, 3, 1, 0, 0,  4, 2, 7, 0, 3, 1, 0, 0,  4, 0, 7, 0, 3, 3, 0, 0 };
    CHECK(gives(in, sizeof in,
        "0 5 0 0 0 3 3\n0 3 7 1 1 1 1\n20 4 7 0 0 0 0\n0 4 7 0 0 3 1\n0 4 7 0 2 3 1\n"
        "20 4 7 0 0 0 0\nm 0 0 3 2 6\ncorners 1 list 1\n"));
}

int main(void)
{
    cases_a_to_c();
    cases_d_to_f();
    cases_g_to_i();
    two_by_three();
    scanned_rows();
    hard_counts();
    hard_stays();
    hard_cleared();
    hard_slots();
    size_edges();
    sizes_elsewhere();
    block_edges();
    slot_edges();
    request_edges();
    room_edges();
    slots_fall();
    kinds_fall();
    hard_falls();
    ids_and_cells_fall();
    weights_fall();
    codes_11_to_14();
    codes_15_to_17();
    codes_18_to_21();
    codes_of_set();
    codes_of_hard();
    sets_as_pins();
    rules_and_ties();
    exchanges();
    exchange_moves();
    exchange_stays();
    exchange_chosen();
    exchange_weights();
    block_in_turn();
    hard_in_turn();
    every_filling(1, 1);
    every_filling(1, 4);
    every_filling(4, 1);
    every_filling(3, 3);
    every_filling(4, 3);
    every_filling(3, 4);
    every_filling(6, 2);
    program_example();
    program_clears();
    program_sets();
    program_exchanges();
    printf("brute: %u checks, %u failed\n", checks, failed);
    return failed == 0 ? 0 : 1;
}
