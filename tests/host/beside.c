/* Every code that can occur, given by one case and withheld by another just
 * beside it. What is expected stands here, from the rules, with no other program
 * asked. Code 22 is never given on a surface that stands. */
#include <stdio.h>
#include <string.h>

#include "host.h"

enum { W = 3, H = 2, CELLS = W * H };

static uint8_t weights[2 * 65 * 65], table[8 * 257], requests[8 * 513], answers[8 * 514], room[8 * CELLS];
static uint64_t columns = W, rows = H, slots;
static int cases, wrong;

static void is(const char *what, unsigned code, unsigned expected)
{
    cases++;
    if (code == expected)
        return;
    wrong++;
    printf("beside: %s: code %u, not %u\n", what, code, expected);
}

static unsigned clear(uint64_t w, uint64_t h, uint64_t weights_len, uint64_t table_len)
{
    return freelist_code(freelist_clear(w, h, weights, weights_len, table, table_len));
}

static unsigned check(void)
{
    return freelist_code(freelist_check(columns, rows, weights, 2 * columns * rows, table, 8 * slots));
}

static unsigned run(uint64_t requests_len, uint64_t answers_len)
{
    return freelist_code(freelist_run(columns, rows, weights, 2 * columns * rows, table, 8 * slots, requests, requests_len, answers, answers_len));
}

static unsigned list(uint64_t room_len)
{
    return freelist_code(freelist_list(W, H, weights, 2 * CELLS, table, 8 * slots, room, room_len));
}

/* A cleared surface of this size with a table of n slots; mostly of W and H. */
static void anew_of(uint64_t w, uint64_t h, uint64_t n)
{
    columns = w;
    rows = h;
    slots = n;
    is("a cleared surface", clear(w, h, 2 * w * h, 8 * n), 0);
}

static void anew(uint64_t n) { anew_of(W, H, n); }

/* The code of one request. */
static unsigned ask(int op, int rule, int id, int w, int h, int a, int b)
{
    const uint8_t q[8] = { (uint8_t)op, (uint8_t)rule, (uint8_t)(id & 255), (uint8_t)(id >> 8), (uint8_t)w, (uint8_t)h, (uint8_t)a, (uint8_t)b };
    memcpy(requests, q, 8);
    is("a block of one request", run(8, 8), 0);
    return answers[0];
}

static void sizes(void)
{
    is("W = 64", clear(64, 1, 128, 8), 0);
    is("W = 65", clear(65, 1, 130, 8), 1);
    is("W = 1", clear(1, 1, 2, 8), 0);
    is("W = 0", clear(0, 1, 0, 8), 1);
    is("H = 64", clear(1, 64, 128, 8), 0);
    is("H = 65", clear(1, 65, 130, 8), 1);
    is("H = 0", clear(1, 0, 0, 8), 1);
    is("W = 2^64 - 1", clear(UINT64_MAX, 1, 0, 8), 1);
    is("weights as long as the surface", clear(W, H, 2 * CELLS, 8), 0);
    is("weights a byte short", clear(W, H, 2 * CELLS - 1, 8), 2);
    is("weights a byte long", clear(W, H, 2 * CELLS + 1, 8), 2);
    is("weights counted in numbers", clear(W, H, CELLS, 8), 2);
    is("256 slots", clear(W, H, 2 * CELLS, 2048), 0);
    is("257 slots", clear(W, H, 2 * CELLS, 2056), 3);
    is("no slot", clear(W, H, 2 * CELLS, 0), 3);
    is("a slot and a byte", clear(W, H, 2 * CELLS, 9), 3);
}

static void blocks(void)
{
    anew(2);
    memset(requests, 0, sizeof requests);
    is("512 requests", run(8 * 512, 8 * 512), 0);
    is("513 requests", run(8 * 513, 8 * 513), 4);
    is("no request", run(0, 0), 0);
    is("a request and a byte", run(9, 9), 4);
    is("answers as long as the block", run(8, 8), 0);
    is("answers longer", run(8, 16), 5);
    is("answers shorter", run(8, 7), 5);
    is("a surface that stands", check(), 0);
    weights[0] ^= 1;
    is("one bit of one weight", check(), 6);
    is("an empty block on it", run(0, 0), 6);
    is("its list", list(sizeof room), 6);
    weights[0] ^= 1;
    is("room for the one entry", list(8), 0);
    is("a byte less", list(7), 7);
}

static unsigned list_2x2(uint64_t room_len)
{
    return freelist_code(freelist_list(2, 2, weights, 8, table, 8, room, room_len));
}

/* "W times the number of scanned rows is always enough room": on 2x2 with a module on cell (0,0)
 * one row is scanned, and the list has W entries. */
static void scanned_rows(void)
{
    static const uint8_t pin[8] = { 3, 0, 1, 0, 1, 1, 0, 0 };
    is("a cleared 2x2", clear(2, 2, 8, 8), 0);
    is("a module on (0,0)", freelist_code(freelist_run(2, 2, weights, 8, table, 8, pin, 8, answers, 8)), 0);
    is("the module there", answers[0], 0);
    is("room for W entries for one scanned row", list_2x2(8 * 2 * 1), 0);
    is("that room a byte less", list_2x2(8 * 2 * 1 - 1), 7);
    is("that room an entry less", list_2x2(8 * 2 * 1 - 8), 7);
}

static void records(void)
{
    anew(4);
    is("operation 5", ask(5, 0, 1, 1, 1, 0, 0), 11);
    is("operation 4", ask(4, 0, 1, 1, 1, 0, 0), 16);
    is("operation 0", ask(0, 0, 1, 1, 1, 0, 0), 11);
    is("operation 7", ask(7, 0, 1, 1, 1, 0, 0), 11);
    is("operation 255", ask(255, 0, 1, 1, 1, 0, 0), 11);
    is("place with byte 6", ask(1, 0, 1, 1, 1, 1, 0), 12);
    is("place with byte 7", ask(1, 0, 1, 1, 1, 0, 1), 12);
    is("pin with a rule", ask(3, 1, 1, 1, 1, 0, 0), 12);
    is("remove with a width", ask(2, 0, 1, 1, 0, 0, 0), 12);
    is("rule 3", ask(1, 3, 1, 1, 1, 0, 0), 13);
    is("id 0", ask(1, 2, 0, 1, 1, 0, 0), 14);
    is("rule 2", ask(1, 2, 1, 1, 1, 0, 0), 0);
    is("id 256", ask(1, 0, 256, 1, 1, 0, 0), 0);
    is("id 1 again", ask(1, 0, 1, 1, 1, 0, 0), 15);
    is("id 2", ask(1, 0, 2, 1, 1, 0, 0), 0);
    is("remove id 3", ask(2, 0, 3, 0, 0, 0, 0), 16);
    is("remove id 2", ask(2, 0, 2, 0, 0, 0, 0), 0);
    is("remove id 2 again", ask(2, 0, 2, 0, 0, 0, 0), 16);
    is("exchange id 2", ask(4, 0, 2, 1, 1, 0, 0), 16);
    is("exchange id 1", ask(4, 0, 1, 1, 1, 0, 0), 0);
}

static void places(void)
{
    anew(2);
    is("width 0", ask(1, 0, 1, 0, 1, 0, 0), 17);
    is("height 0", ask(1, 0, 1, 1, 0, 0, 0), 17);
    is("pin 3x1 at x = 1", ask(3, 0, 1, 3, 1, 1, 0), 18);
    is("pin 1x2 at y = 1", ask(3, 0, 1, 1, 2, 0, 1), 18);
    is("pin 3x1 at x = 0", ask(3, 0, 1, 3, 1, 0, 0), 0);
    is("pin on it", ask(3, 0, 2, 1, 1, 2, 0), 21);
    is("pin below it", ask(3, 0, 2, 1, 1, 2, 1), 0);
    is("a third module of two slots", ask(1, 0, 3, 1, 1, 0, 0), 19);
    is("exchange over an old cell, full table", ask(4, 0, 2, 3, 1, 0, 0), 20);
    is("exchange beside the old cell, full table", ask(4, 0, 2, 2, 1, 0, 0), 0);
    is("exchange for one too high", ask(4, 0, 2, 1, 2, 0, 0), 20);
    anew(3);
    is("place 200x1", ask(1, 0, 1, 200, 1, 0, 0), 20);
    is("place one wider than the surface", ask(1, 0, 1, W + 1, H, 0, 0), 20);
    is("place one as large as the surface", ask(1, 0, 1, W, H, 0, 0), 0);
    is("place on a full surface", ask(1, 0, 2, 1, 1, 0, 0), 20);
}

/* Whether slot n is this record: "its kind: 0 a module, 1 a block" (order 2). */
static void slot_is(const char *what, int n, int id, int x, int y, int w, int h, int kind)
{
    const uint8_t s[8] = { (uint8_t)(id & 255), (uint8_t)(id >> 8), (uint8_t)x, (uint8_t)y, (uint8_t)w, (uint8_t)h, (uint8_t)kind, 0 };
    is(what, memcmp(table + 8 * n, s, 8) == 0, 1);
}

static void answer_is(const char *what, int op, int id, int x, int y, int w, int h)
{
    const uint8_t a[8] = { 0, (uint8_t)op, (uint8_t)(id & 255), (uint8_t)(id >> 8), (uint8_t)x, (uint8_t)y, (uint8_t)w, (uint8_t)h };
    is(what, memcmp(answers, a, 8) == 0, 1);
}

/* "New operation 6 takes the fields of a pin and sets a block, with a pin's refusals in the same
 * order": each request gives its code though those after it apply too, where they can. */
static void sets(void)
{
    anew(2);
    is("pin id 1", ask(3, 0, 1, 1, 1, 1, 0), 0);
    is("set with a rule", ask(6, 1, 0, 0, 0, 9, 9), 12);
    is("set id 0", ask(6, 0, 0, 0, 0, 9, 9), 14);
    is("set id 1", ask(6, 0, 1, 0, 0, 9, 9), 15);
    is("set of width 0", ask(6, 0, 2, 0, 1, 9, 9), 17);
    is("set of height 0", ask(6, 0, 2, 1, 0, 9, 9), 17);
    is("set 2x1 at x = 2", ask(6, 0, 2, 2, 1, 2, 0), 18);
    is("set 1x2 at y = 1", ask(6, 0, 2, 1, 2, 1, 1), 18);
    is("set 2x1 at x = 255", ask(6, 0, 2, 2, 1, 255, 0), 18);
    is("set on id 1", ask(6, 0, 2, 2, 1, 1, 0), 21);
    is("set with a cell on id 1", ask(6, 0, 2, 2, 2, 0, 0), 21);
    is("set beside id 1", ask(6, 0, 258, 2, 1, 1, 1), 0);
    answer_is("its answer", 6, 258, 1, 1, 2, 1);
    slot_is("its slot", 1, 258, 1, 1, 2, 1, 1);
    slot_is("the slot of id 1", 0, 1, 1, 0, 1, 1, 0);
    is("set of width 0, no free slot", ask(6, 0, 2, 0, 1, 0, 0), 17);
    is("set off the surface, no free slot", ask(6, 0, 2, 1, 1, 3, 0), 18);
    is("set on a block, no free slot", ask(6, 0, 2, 1, 1, 1, 1), 19);
    is("set, no free slot", ask(6, 0, 2, 1, 1, 0, 0), 19);
    is("remove id 1", ask(2, 0, 1, 0, 0, 0, 0), 0);
    is("set on a block", ask(6, 0, 2, 1, 1, 1, 1), 21);
    is("pin on a block", ask(3, 0, 2, 1, 1, 2, 1), 21);
    is("set in the slot of id 1", ask(6, 0, 2, 1, 1, 0, 0), 0);
    slot_is("that slot", 0, 2, 0, 0, 1, 1, 1);
    is("the surface stands", check(), 0);
    anew(2);
    is("the blocks are cleared: remove", ask(2, 0, 258, 0, 0, 0, 0), 16);
    is("the blocks are cleared: set", ask(6, 0, 258, W, H, 0, 0), 0);
    is("a place of no free cell", ask(1, 0, 1, 1, 1, 0, 0), 20);
}

/* "23, remove or exchange of a block, follows 16": and beside it a module, an id that is not placed,
 * and what comes before 23. */
static void hards(void)
{
    anew(3);
    is("set id 5", ask(6, 0, 5, 1, 2, 1, 0), 0);
    is("pin id 6", ask(3, 0, 6, 1, 1, 0, 0), 0);
    is("remove of a block", ask(2, 0, 5, 0, 0, 0, 0), 23);
    is("remove of a block with a width", ask(2, 0, 5, 1, 0, 0, 0), 12);
    is("remove of id 7", ask(2, 0, 7, 0, 0, 0, 0), 16);
    is("remove of id 261", ask(2, 0, 261, 0, 0, 0, 0), 16);
    is("exchange of a block", ask(4, 0, 5, 1, 1, 0, 0), 23);
    is("exchange of a block to its own size", ask(4, 2, 5, 1, 2, 0, 0), 23);
    is("exchange of a block to 0x0", ask(4, 0, 5, 0, 0, 0, 0), 23);
    is("exchange of a block to 0x1", ask(4, 0, 5, 0, 1, 0, 0), 23);
    is("exchange of a block to 1x0", ask(4, 0, 5, 1, 0, 0, 0), 23);
    is("exchange of a block to 200x1", ask(4, 1, 5, 200, 1, 0, 0), 23);
    is("exchange of a block with byte 6", ask(4, 0, 5, 1, 1, 1, 0), 12);
    is("exchange of a block by rule 3", ask(4, 3, 5, 1, 1, 0, 0), 13);
    is("exchange of id 0", ask(4, 0, 0, 0, 0, 0, 0), 14);
    is("exchange of id 7 to 0x0", ask(4, 0, 7, 0, 0, 0, 0), 16);
    is("exchange of a module to 0x0", ask(4, 0, 6, 0, 0, 0, 0), 17);
    is("exchange of a module to 200x1", ask(4, 0, 6, 200, 1, 0, 0), 20);
    is("exchange of a module over the block", ask(4, 0, 6, 2, 1, 0, 0), 20);
    is("exchange of a module beside the block", ask(4, 0, 6, 1, 2, 0, 0), 0);
    slot_is("its slot", 1, 6, 2, 0, 1, 2, 0);
    is("place under the id of a block", ask(1, 0, 5, 1, 1, 0, 0), 15);
    is("pin under the id of a block", ask(3, 0, 5, 1, 1, 2, 0), 15);
    is("set under the id of a block", ask(6, 0, 5, 1, 1, 2, 0), 15);
    is("place beside the block", ask(1, 0, 7, 1, 2, 0, 0), 0);
    slot_is("the slot of id 7", 2, 7, 0, 0, 1, 2, 0);
    is("remove of a module beside the block", ask(2, 0, 6, 0, 0, 0, 0), 0);
    is("remove of the module on its other side", ask(2, 0, 7, 0, 0, 0, 0), 0);
    slot_is("the block's slot", 0, 5, 1, 0, 1, 2, 1);
    is("remove of the block once more", ask(2, 0, 5, 0, 0, 0, 0), 23);
}

/* Whether the weights are these, row by row. */
static void weights_are(const char *what, const int *expected)
{
    int same = 1;
    for (uint64_t i = 0; i < columns * rows; i++)
        same &= (int16_t)(uint16_t)(weights[2 * i] | weights[2 * i + 1] << 8) == expected[i];
    is(what, (unsigned)same, 1);
}
#define WEIGHTS_ARE(what, ...) weights_are(what, (const int[]){ __VA_ARGS__ })

/* "the new one may not cover a single old cell" (order 3): each but H would have a place without the
 * old module, and beside it stands one that has a place with it. */
static void old_in_its_place(int rule)
{
    anew_of(3, 3, 2);
    is("D", ask(3, 0, 7, 1, 1, 1, 1), 0);
    is("G", ask(4, rule, 7, 2, 2, 0, 0), 20);
    is("D, exchange for all of it", ask(4, rule, 7, 3, 3, 0, 0), 20);
    is("D, exchange for two columns", ask(4, rule, 7, 2, 3, 0, 0), 20);
    is("D, exchange for two rows", ask(4, rule, 7, 3, 2, 0, 0), 20);
    is("H", ask(4, rule, 7, 4, 1, 0, 0), 20);
    slot_is("D, refused", 0, 7, 1, 1, 1, 1, 0);
    WEIGHTS_ARE("D, refused: weights", 1, 1, 1, 2, -1, 2, 3, 1, 3);
    is("D, exchange for a row", ask(4, rule, 7, 3, 1, 0, 0), 0);
    slot_is("a row", 0, 7, 0, rule == 2 ? 2 : 0, 3, 1, 0);
    slot_is("one record", 1, 0, 0, 0, 0, 0, 0);
    is("the two other rows", ask(4, rule, 7, 3, 2, 0, 0), 0);
    slot_is("the two rows", 0, 7, 0, rule == 2 ? 0 : 1, 3, 2, 0);
    is("two rows again", ask(4, rule, 7, 3, 2, 0, 0), 20);
    is("the surface stands", check(), 0);
}

/* "the old one goes when the new one stands" (order 3): to and fro on a surface of 3x1, and of the
 * same size; with one slot, so that none is free. */
static void old_gone(int rule)
{
    anew_of(3, 1, 1);
    is("pin id 1", ask(3, 0, 1, 1, 1, 0, 0), 0);
    is("exchange for one of the same size", ask(4, rule, 1, 1, 1, 0, 0), 0);
    answer_is("it moves", 4, 1, 1, 0, 1, 1);
    WEIGHTS_ARE("it has moved", 1, -1, 1);
    is("exchange for two cells, one on each side", ask(4, rule, 1, 2, 1, 0, 0), 20);
    is("exchange for one of the same size", ask(4, rule, 1, 1, 1, 0, 0), 0);
    WEIGHTS_ARE("it has moved back", -1, 1, 1);
    is("exchange for the two cells beside it", ask(4, rule, 1, 2, 1, 0, 0), 0);
    answer_is("beside its old place", 4, 1, 1, 0, 2, 1);
    slot_is("in its slot", 0, 1, 1, 0, 2, 1, 0);
    WEIGHTS_ARE("the old cell is empty", 1, -2, -1);
    is("exchange for one of the same size, no room", ask(4, rule, 1, 2, 1, 0, 0), 20);
    is("a place, no free slot", ask(1, rule, 2, 1, 1, 0, 0), 19);
    is("an exchange, no free slot", ask(4, rule, 1, 1, 1, 0, 0), 0);
    answer_is("at the old place", 4, 1, 0, 0, 1, 1);
    is("remove", ask(2, 0, 1, 0, 0, 0, 0), 0);
    is("the whole row", ask(1, rule, 1, 3, 1, 0, 0), 0);
    is("exchange on a full surface", ask(4, rule, 1, 1, 1, 0, 0), 20);
    is("to its own size", ask(4, rule, 1, 3, 1, 0, 0), 20);
    WEIGHTS_ARE("the whole row stays", -3, -2, -1);
}

/* The entries of 5x3 with a block in column 2 and module 513, 1x1, at (0,2): (0,0,2,2), (1,0,1,3),
 * (3,0,2,3). Without module 513: (0,0,2,3) and (3,0,2,3), so the old place by every rule, and (3,2)
 * where the entry that it lies in is passed over. Slot 0 is free. */
static void list_with_the_old(int rule)
{
    anew_of(5, 3, 3);
    is("pin id 8", ask(3, 0, 8, 1, 1, 4, 0), 0);
    is("pin id 513", ask(3, 0, 513, 1, 1, 0, 2), 0);
    is("a block", ask(6, 0, 9, 1, 3, 2, 0), 0);
    is("remove id 8", ask(2, 0, 8, 0, 0, 0, 0), 0);
    is("exchange for one of the same size", ask(4, rule, 513, 1, 1, 0, 0), 0);
    answer_is("by the rule", 4, 513, rule == 0 ? 0 : 1, rule == 0 ? 1 : 2, 1, 1);
    slot_is("in its slot", 1, 513, rule == 0 ? 0 : 1, rule == 0 ? 1 : 2, 1, 1, 0);
    slot_is("the free slot", 0, 0, 0, 0, 0, 0, 0);
    slot_is("the block's slot", 2, 9, 2, 0, 1, 3, 1);
    if (rule == 0)
        WEIGHTS_ARE("above the old cell", 1, 1, -1, 1, 1, -1, 2, -1, 2, 2, 1, 3, -1, 3, 3);
    else
        WEIGHTS_ARE("beside the old cell", 1, 1, -1, 1, 1, 2, 2, -1, 2, 2, 3, -1, -1, 3, 3);
    is("exchange for what is beside the block", ask(4, rule, 513, 2, 3, 0, 0), 0);
    answer_is("there", 4, 513, 3, 0, 2, 3);
    WEIGHTS_ARE("it stands there", 1, 1, -1, -2, -1, 2, 2, -1, -2, -1, 3, 3, -1, -2, -1);
    is("its kind: remove", ask(2, 0, 513, 0, 0, 0, 0), 0);
}

/* "the weights from the module's top row down to the next occupied cell below it": of the old module
 * and of the new, which have column 0 in common, with another below both in column 1. */
static void weights_below(void)
{
    anew_of(2, 6, 3);
    is("pin id 1", ask(3, 0, 1, 2, 1, 0, 1), 0);
    is("pin id 2", ask(3, 0, 2, 1, 1, 1, 4), 0);
    WEIGHTS_ARE("before", 1, 1, -2, -1, 1, 1, 2, 2, 3, -1, 4, 1);
    is("exchange for one below it", ask(4, 0, 1, 1, 3, 0, 0), 0);
    answer_is("below it", 4, 1, 0, 3, 1, 3);
    WEIGHTS_ARE("counted on from above", 1, 1, 2, 2, 3, 3, -1, 4, -1, -1, -1, 1);
    is("exchange for one above it", ask(4, 0, 1, 2, 2, 0, 0), 0);
    answer_is("above it", 4, 1, 0, 1, 2, 2);
    WEIGHTS_ARE("counted anew below", 1, 1, -2, -1, -2, -1, 1, 1, 2, -1, 3, 1);
    is("exchange for two rows", ask(4, 2, 1, 2, 2, 0, 0), 20);
    is("exchange for the last row", ask(4, 2, 1, 2, 1, 0, 0), 0);
    WEIGHTS_ARE("counted on to the next", 1, 1, 2, 2, 3, 3, 4, 4, 5, -1, -2, -1);
}

/* The last of 256 slots, all of them used: on 17x16 only the last column is free. */
static void last_slot(void)
{
    anew_of(17, 16, 256);
    for (int id = 1; id <= 256; id++)
        is("a pin for each slot", ask(3, 0, id, 1, 1, (id - 1) % 16, (id - 1) / 16), 0);
    is("exchange in the last slot", ask(4, 0, 256, 1, 1, 0, 0), 0);
    slot_is("the last slot", 255, 256, 16, 15, 1, 1, 0);
    is("a place, no free slot", ask(1, 0, 300, 1, 1, 0, 0), 19);
    is("exchange for two columns", ask(4, 0, 256, 2, 1, 0, 0), 20);
}

/* A block of 512 exchanges on 64x64, and the same as 512 blocks of one. */
static void many_exchanges(void)
{
    static uint8_t block[8 * 512], weights_left[2 * 64 * 64];
    uint8_t slot_left[8];
    for (int i = 0; i < 512; i++)
        memcpy(block + 8 * i, (const uint8_t[8]){ 4, (uint8_t)(i % 3), 1, 0, (uint8_t)(1 + i % 31), (uint8_t)(1 + i % 29), 0, 0 }, 8);
    anew_of(64, 64, 1);
    is("a pin", ask(3, 0, 1, 32, 32, 0, 32), 0);
    uint64_t r = freelist_run(64, 64, weights, sizeof weights_left, table, 8, block, sizeof block, answers, sizeof block);
    is("512 exchanges", freelist_code(r), 0);
    is("all accepted", freelist_first(r), 512);
    is("the surface stands", check(), 0);
    memcpy(weights_left, weights, sizeof weights_left);
    memcpy(slot_left, table, 8);
    anew_of(64, 64, 1);
    is("the same pin", ask(3, 0, 1, 32, 32, 0, 32), 0);
    for (uint8_t *q = block; q < block + sizeof block; q += 8)
        is("one of them", ask(q[0], q[1], 1, q[4], q[5], 0, 0), 0);
    is("the same slot", memcmp(slot_left, table, 8) == 0, 1);
    is("the same weights", memcmp(weights_left, weights, sizeof weights_left) == 0, 1);
}

/* The one occupied cell of a surface. Where counted is set it is a module's, and all rows above it
 * and all below it were occupied before, so that the library counted their weights anew; else it is a
 * block's on a cleared surface. */
struct lone { int x, y, counted; };

static void occupy(const struct lone *cell)
{
    int above = cell->counted ? cell->y : 0, below = cell->counted ? (int)rows - cell->y - 1 : 0;
    anew_of(columns, rows, 4);
    if (above > 0)
        is("all rows above the cell", ask(3, 0, 2, (int)columns, above, 0, 0), 0);
    if (below > 0)
        is("all rows below the cell", ask(3, 0, 3, (int)columns, below, 0, cell->y + 1), 0);
    is("the cell", ask(cell->counted ? 3 : 6, 0, 1, 1, 1, cell->x, cell->y), 0);
    if (above > 0)
        is("remove what is above", ask(2, 0, 2, 0, 0, 0, 0), 0);
    if (below > 0)
        is("remove what is below", ask(2, 0, 3, 0, 0, 0, 0), 0);
}

/* A pin of w columns and h rows at (x, y), and a set, where it lies on the surface. */
static void with_one_cell(const struct lone *cell, int w, int h, int x, int y, unsigned expected)
{
    char what[80];
    if (x < 0 || y < 0 || x + w > (int)columns || y + h > (int)rows)
        return;
    for (int op = 3; op <= 6; op += 3) {
        occupy(cell);
        snprintf(what, sizeof what, "%s %dx%d at (%d,%d), (%d,%d) occupied", op == 3 ? "pin" : "set", w, h, x, y,
                 cell->x, cell->y);
        is(what, ask(op, 0, 258, w, h, x, y), expected);
        is("the surface stands", check(), 0);
    }
}

/* A place on a surface of W columns and H rows. */
struct place { int W, H, x, y, w, h; };

/* With this cell of the place occupied, 21; and 0 where the place is moved left, right, up or down
 * until the cell is just outside it. */
static void in_and_beside(const struct place *p, int x, int y)
{
    for (int counted = 0; counted < 2; counted++) {
        const struct lone cell = { x, y, counted };
        with_one_cell(&cell, p->w, p->h, p->x, p->y, 21);
        with_one_cell(&cell, p->w, p->h, x - p->w, p->y, 0);
        with_one_cell(&cell, p->w, p->h, x + 1, p->y, 0);
        with_one_cell(&cell, p->w, p->h, p->x, y - p->h, 0);
        with_one_cell(&cell, p->w, p->h, p->x, y + 1, 0);
    }
}

/* "a rectangle is empty when every cell of its bottom row has a weight of at least its height" (order
 * 4): each corner of the place, the middle of each edge and the middle of all in turn is its only
 * occupied cell. */
static void one_cell(void)
{
    static const struct place places[] = {
        { 3, 3, 1, 1, 1, 1 }, { 9, 9, 3, 3, 3, 3 }, { 15, 12, 5, 4, 5, 4 }, { 1, 9, 0, 3, 1, 3 },
        { 9, 1, 3, 0, 3, 1 }, { 64, 64, 10, 0, 1, 64 }, { 64, 64, 0, 10, 64, 1 }, { 64, 64, 0, 0, 63, 63 },
        { 64, 64, 1, 1, 63, 63 }, { 64, 64, 0, 0, 64, 64 } };
    for (unsigned i = 0; i < sizeof places / sizeof places[0]; i++) {
        const struct place *p = &places[i];
        const int x[3] = { p->x, p->x + p->w / 2, p->x + p->w - 1 }, y[3] = { p->y, p->y + p->h / 2, p->y + p->h - 1 };
        columns = (uint64_t)p->W;
        rows = (uint64_t)p->H;
        for (unsigned k = 0; k < 9; k++)
            in_and_beside(p, x[k % 3], y[k / 3]);
    }
}

/* The code of a check with these bytes 6 and 7 in slot n, put back afterwards. */
static unsigned check_with(int n, int kind, int spare)
{
    uint8_t *s = table + 8 * n, was[2] = { s[6], s[7] };
    s[6] = (uint8_t)kind;
    s[7] = (uint8_t)spare;
    unsigned code = check();
    memcpy(s + 6, was, 2);
    return code;
}

/* "A surface stands with kinds 0 and 1 and every other spare byte zero": a module in slot 0, a block
 * in slot 1, slot 2 free. */
static void kinds(void)
{
    anew(3);
    is("a module", ask(3, 0, 1, 1, 1, 0, 0), 0);
    is("a block", ask(6, 0, 2, 1, 1, 2, 1), 0);
    is("used slots", freelist_first(freelist_check(W, H, weights, 2 * CELLS, table, 8 * slots)), 2);
    for (int n = 0; n < 2; n++) {
        is("kind 0", check_with(n, 0, 0), 0);
        is("kind 1", check_with(n, 1, 0), 0);
        is("kind 2", check_with(n, 2, 0), 6);
        is("kind 3", check_with(n, 3, 0), 6);
        is("kind 128", check_with(n, 128, 0), 6);
        is("kind 255", check_with(n, 255, 0), 6);
        is("kind 0 and byte 7", check_with(n, 0, 1), 6);
        is("kind 1 and byte 7", check_with(n, 1, 1), 6);
        is("kind 1 and byte 7 of 255", check_with(n, 1, 255), 6);
        is("kind 255 and byte 7", check_with(n, 255, 1), 6);
    }
    is("a free slot", check_with(2, 0, 0), 0);
    is("a free slot with kind 1", check_with(2, 1, 0), 6);
    is("a free slot with byte 7", check_with(2, 0, 1), 6);
    table[6] = 1;
    is("the module made a block", ask(2, 0, 1, 0, 0, 0, 0), 23);
    table[6] = 0;
    is("the module", ask(2, 0, 1, 0, 0, 0, 0), 0);
}

int main(void)
{
    sizes();
    blocks();
    scanned_rows();
    records();
    places();
    sets();
    hards();
    for (int rule = 0; rule < 3; rule++) {
        old_in_its_place(rule);
        old_gone(rule);
        list_with_the_old(rule);
    }
    weights_below();
    last_slot();
    many_exchanges();
    one_cell();
    kinds();
    printf("beside: %d cases, %d wrong\n", cases, wrong);
    return wrong != 0;
}
