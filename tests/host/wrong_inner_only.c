/* "In the test of a position, leaving only the inner of two nested walks at an
 * occupied cell: the next row then goes on and an occupied place passes."
 *
 * The walk of a position test and of an overlap test over rows and columns, with
 * what is left at an occupied cell as its one parameter. On surfaces and tables
 * drawn at random the walk that leaves both loops says what the library answers, of
 * each pin (0 or 21) and of each table (0 or 6); the one that leaves the inner loop
 * only passes occupied places, in so many of the same cases that no library built
 * so could agree with the brute force, which compare.c asks on such surfaces. (A pin
 * is tested by the weights of its bottom row, order 4: wrong_bottom_row.c. Its
 * answers are those of a walk over all its cells.) Exit status 0 when all this is
 * so. */
#include "host.h"
#include "numbers.h"
#include "pins.h"
#include "surfaces.h"

#include <stdio.h>
#include <string.h>

enum { PINS = 4000, TABLES = 4000, LEAST = 300 };
enum { BOTH, INNER_ONLY };

struct cells { uint8_t taken[64][64]; };

/* Whether no cell of (x, y, w, h) is taken; each one looked at is marked where
 * marks is set. */
static int none_taken(struct cells *c, const uint8_t r[4], int leaves, int marks)
{
    int free = 1;
    for (unsigned j = r[1]; j < r[1] + r[3] + 0u; j++) {
        free = 1;
        for (unsigned i = r[0]; i < r[0] + r[2] + 0u; i++) {
            if (c->taken[j][i]) {
                free = 0;
                if (leaves == BOTH)
                    goto rows;
                break;
            }
            c->taken[j][i] = (uint8_t)marks;
        }
    }
rows:
    return free;
}

static struct call_case c;

/* ---- the test of a position: a pin ---------------------------------------- */

/* The cells with negative weights. */
static int pin_passes(const uint8_t r[4], int leaves)
{
    struct cells cells;
    for (unsigned y = 0; y < c.h; y++)
        for (unsigned x = 0; x < c.w; x++)
            cells.taken[y][x] = get_weight(&c, x, y) < 0;
    return none_taken(&cells, r, leaves, 0);
}

/* ---- the overlap test: a check --------------------------------------------- */

/* The modules in turn, each on what those before it marked. */
static int table_passes(int leaves)
{
    struct cells cells;
    memset(&cells, 0, sizeof cells);
    for (uint64_t i = 0; i < c.lent[TABLE].len; i += 8)
        if (!none_taken(&cells, c.lent[TABLE].byte + i + 2, leaves, 1))
            return 0;
    return 1;
}

/* Two to five modules anywhere on the surface, and weights that agree with them
 * as far as may be: nothing but a shared cell can be amiss. */
static void draw_table(void)
{
    unsigned modules = from_to(2, 5), w = from_to(1, 9), h = from_to(1, 9);
    cleared(&c, w, h, modules);
    for (unsigned i = 0; i < modules; i++) {
        uint8_t *slot = c.lent[TABLE].byte + 8 * i;
        slot[0] = (uint8_t)(i + 1);
        draw_place(&c, slot + 2, 4);
    }
    paint(&c, one_in(2));
}

static unsigned table_code(void)
{
    const struct bytes *weights = &c.lent[WEIGHTS], *table = &c.lent[TABLE];
    return freelist_code(freelist_check(c.w, c.h, weights->byte, weights->len, table->byte, table->len));
}

/* ---- counts ------------------------------------------------------------------ */

struct counts { unsigned cases, refused, right_differs, wrong_passes; };

static void count(struct counts *n, unsigned code, unsigned refusal, int right, int wrong)
{
    n->cases++;
    n->refused += code == refusal;
    n->right_differs += code != (right ? 0 : refusal);
    n->wrong_passes += code == refusal && wrong;
}

static int is_told(const char *what, const struct counts *n)
{
    printf("inner walk only: %u %s, %u refused; leaving both walks differs on %u, the inner alone passes %u of them\n",
           n->cases, what, n->refused, n->right_differs, n->wrong_passes);
    return n->right_differs == 0 && n->wrong_passes >= LEAST && n->refused < n->cases;
}

int main(void)
{
    static struct counts pins, tables;
    numbers_from(6);
    for (unsigned i = 0; i < PINS; i++) {
        uint8_t r[4];
        surface_with_free_slot(&c, i % SHAPES);
        draw_place(&c, r, 64);
        int right = pin_passes(r, BOTH), wrong = pin_passes(r, INNER_ONLY);
        count(&pins, library_code(&c, 3, r), 21, right, wrong);
    }
    for (unsigned i = 0; i < TABLES; i++) {
        draw_table();
        int right = table_passes(BOTH), wrong = table_passes(INNER_ONLY);
        count(&tables, table_code(), 6, right, wrong);
    }
    int pins_told = is_told("pins", &pins), tables_told = is_told("tables", &tables);
    return pins_told && tables_told ? 0 : 1;
}
