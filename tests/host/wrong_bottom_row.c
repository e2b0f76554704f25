/* "a rectangle is empty when every cell of its bottom row has a weight of at least
 * its height" (order 4).
 *
 * The walk of that test over the lent weights, with what is wrong as its one
 * parameter. At places drawn at random, on surfaces drawn at random, the right one
 * says what the library answers there to a pin and to a set (0 or 21); each wrong
 * one differs, in so many of the same cases that no library built so could agree
 * with the brute force, which compare.c asks on such surfaces and at such places.
 * Exit status 0 when all this is so, and each sort of place came up. */
#include "laid.h"
#include "numbers.h"
#include "pins.h"
#include "surfaces.h"

#include <stdio.h>

enum { SMALL = 100 * SHAPES, LARGE = 100, PLACES = 8, LEAST = 300, LEAST_OF_A_SORT = 100 };

static struct call_case c;

/* ---- the test, and what may be wrong with it ------------------------------------ */

enum {
    RIGHT, TOP_ROW, ROW_ABOVE, ROW_BELOW, NOT_THE_FIRST, NOT_THE_LAST, GOES_ON, LESS, MORE, WIDTH, SIGN,
    NO_SIGN, TESTS
};

static const char *const test_names[TESTS] = {
    "every cell of the bottom row at least the height", "the top row", "the row above the bottom row",
    "the row below the bottom row", "the first column left out", "the last column left out",
    "not ended by a lower weight, so that the last cell decides", "the height less one", "more than the height",
    "the width for the height", "the sign alone", "weights without a sign" };

/* Where there is no row above or below, the bottom row. */
static unsigned row_walked(const uint8_t place[4], unsigned test)
{
    unsigned bottom = place[1] + place[3] - 1u;
    if (test == TOP_ROW)
        return place[1];
    if (test == ROW_ABOVE && bottom > 0)
        return bottom - 1;
    if (test == ROW_BELOW && bottom + 1 < c.h)
        return bottom + 1;
    return bottom;
}

static int least_asked(const uint8_t place[4], unsigned test)
{
    switch (test) {
    case LESS: return place[3] - 1;
    case MORE: return place[3] + 1;
    case WIDTH: return place[2];
    case SIGN: return 0;
    default: return place[3];
    }
}

static int weight_read(unsigned x, unsigned y, unsigned test)
{
    int weight = get_weight(&c, x, y);
    return test == NO_SIGN ? (uint16_t)weight : weight;
}

static int passes(const uint8_t place[4], unsigned test)
{
    unsigned row = row_walked(place, test), x = place[0], end = x + place[2];
    int least = least_asked(place, test), is_high = 1;
    x += test == NOT_THE_FIRST;
    end -= test == NOT_THE_LAST;
    for (; x < end && (is_high || test == GOES_ON); x++)
        is_high = weight_read(x, row, test) >= least;
    return is_high;
}

/* ---- sorts of places ------------------------------------------------------------- */

enum { ONE_COLUMN, ONE_ROW, TALL, FULL_HEIGHT, UNDER, OVER, W_1, H_1, LARGEST, SORTS };

static const char *const sort_names[SORTS] = {
    "of one column", "of one row", "tall", "of the surface's height", "with a module just above",
    "with a module just below", "on surfaces of one column", "on surfaces of one row", "on 64x64" };

/* Whether the row has an occupied cell in the columns of the place. */
static int is_occupied_there(const uint8_t place[4], unsigned row)
{
    for (unsigned x = place[0]; x < place[0] + place[2] + 0u; x++)
        if (get_weight(&c, x, row) < 0)
            return 1;
    return 0;
}

static int is_of(const uint8_t place[4], unsigned sort)
{
    unsigned below_it = place[1] + place[3];
    switch (sort) {
    case ONE_COLUMN: return place[2] == 1;
    case ONE_ROW: return place[3] == 1;
    case TALL: return place[3] >= TALL_FROM;
    case FULL_HEIGHT: return place[3] == c.h;
    case UNDER: return place[1] > 0 && is_occupied_there(place, place[1] - 1u);
    case OVER: return below_it < c.h && is_occupied_there(place, below_it);
    case W_1: return c.w == 1;
    case H_1: return c.h == 1;
    default: return c.w == 64 && c.h == 64;
    }
}

/* ---- surfaces ---------------------------------------------------------------------- */

/* 64x64 with modules of any size, the table's last slot free. */
static void lay_large(void)
{
    uint8_t m[4];
    unsigned limit = one_in(2) ? 64 : from_to(1, 32);
    lay_none(&c, 64, 64);
    for (unsigned n = below(255); n > 0; n--) {
        draw_place(&c, m, limit);
        lay(m[0], m[1], m[2], m[3]);
    }
    paint(&c, 1);
}

/* ---- counts ------------------------------------------------------------------------ */

/* Where the library accepts, and where it refuses: all, by sort, and those of which a
 * test says otherwise. Other codes are wrong. */
struct counts { unsigned all, of[SORTS], differs[TESTS]; };

static struct counts accepted, refused;
static unsigned others;

static void count(const uint8_t place[4], unsigned code)
{
    struct counts *n = code == 0 ? &accepted : &refused;
    others += code != 0 && code != 21;
    n->all++;
    for (unsigned i = 0; i < SORTS; i++)
        n->of[i] += is_of(place, i);
    for (unsigned i = 0; i < TESTS; i++)
        n->differs[i] += passes(place, i) != (code == 0);
}

static void ask_at_places(void)
{
    uint8_t place[4];
    for (unsigned i = 0; i < PLACES; i++) {
        if (one_in(4))
            draw_place(&c, place, 64);
        else
            draw_high_place(&c, place);
        count(place, library_code(&c, 3, place));
        count(place, library_code(&c, 6, place));
    }
}

static int sorts_came_up(void)
{
    int came_up = 1;
    for (unsigned i = 0; i < SORTS; i++) {
        printf("bottom row: %s: %u accepted, %u refused\n", sort_names[i], accepted.of[i], refused.of[i]);
        came_up &= accepted.of[i] >= LEAST_OF_A_SORT && refused.of[i] >= LEAST_OF_A_SORT;
    }
    return came_up;
}

static int tests_are_told(void)
{
    int told = 1;
    for (unsigned i = 0; i < TESTS; i++) {
        unsigned differs = accepted.differs[i] + refused.differs[i];
        printf("bottom row: %s: refuses %u of those accepted, passes %u of those refused\n", test_names[i],
               accepted.differs[i], refused.differs[i]);
        told &= i == RIGHT ? differs == 0 : differs >= LEAST;
    }
    return told;
}

int main(void)
{
    numbers_from(7);
    for (unsigned i = 0; i < SMALL; i++) {
        surface_with_free_slot(&c, i % SHAPES);
        ask_at_places();
    }
    for (unsigned i = 0; i < LARGE; i++) {
        lay_large();
        ask_at_places();
    }
    printf("bottom row: %u pins and sets, %u accepted, %u refused, %u with another code than 21\n",
           accepted.all + refused.all, accepted.all, refused.all, others);
    int came_up = sorts_came_up(), told = tests_are_told();
    return came_up && told && others == 0 ? 0 : 1;
}
