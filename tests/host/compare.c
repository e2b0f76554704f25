/* The exported library compared with the brute force.
 *
 *   compare SEED SCALE           SCALE rounds of cases drawn from the seed
 *   compare sample SEED SCALE    the same without what is large, for memcheck
 *   compare all34                every way to lay modules on 3x4 and on 4x3
 *
 * Exit status 0 when no case differs, every code was given that may be, and no
 * other, some list filled a room of W entries for each scanned row, each shape had
 * blocks of the fabric, exchanges were accepted beside the old module and refused
 * for it alone (order 3), and tall pins were accepted and refused (order 4). */
#include "all34.h"
#include "blocks.h"
#include "both.h"
#include "calls.h"
#include "damage.h"
#include "numbers.h"
#include "surfaces.h"

#include <stdio.h>
#include <stdlib.h>
#include <string.h>

enum { WAYS34 = 121685 };

static unsigned long shapes_seen[SHAPES], large_seen[SHAPES], hard_seen[SHAPES], damages_seen[DAMAGES];
static struct call_case c;
static int is_sample;                   /* nothing large */

static void blocks_on(unsigned long round)
{
    history(&c);
    if (!is_sample && round % 16 == 0)
        block_edges(&c);
}

static void standing(unsigned long round, unsigned shape)
{
    small_surface(&c, shape);
    shapes_seen[shape]++;
    hard_seen[shape] += hards_in(&c) != 0;
    checked_and_listed(&c);
    blocks_on(round);
    cleared_over(&c);
}

static void large(unsigned long number)
{
    unsigned shape = (unsigned)(number % SHAPES);
    large_surface(&c, shape);
    large_seen[shape]++;
    hard_seen[shape] += hards_in(&c) != 0;
    checked_and_listed(&c);
    for (unsigned i = 0; i < 4; i++)
        some_block(&c);
    checked_and_listed(&c);
    cleared_over(&c);
}

static void damaged(unsigned kind, void (*surface)(struct call_case *, unsigned))
{
    damaged_surface(&c, kind, surface);
    damages_seen[kind]++;
    if (checked_and_listed(&c) != 6) {
        printf("host: damage \"%s\" is not refused\n", damage_name(kind));
        differ++;
    }
    some_block(&c);
    cleared_over(&c);
}

static void round_of(unsigned long round)
{
    for (unsigned shape = 0; shape < SHAPES; shape++)
        standing(round, shape);
    for (unsigned kind = 0; kind < DAMAGES; kind++)
        damaged(kind, small_surface);
    for (unsigned i = 0; i < 12; i++)
        garbage(&c);
    for (unsigned i = 0; i < 8; i++)
        some_edge(&c);
    if (!is_sample && round % 8 == 0)
        large(round / 8);
    if (!is_sample && round % 8 == 4)
        damaged((unsigned)(round / 8 % DAMAGES), large_surface);
}

static void print_kinds(void)
{
    for (unsigned i = 0; i < SHAPES; i++)
        printf("standing, %s: %lu small, %lu large, %lu with blocks of the fabric\n", shape_names[i],
               shapes_seen[i], large_seen[i], hard_seen[i]);
    for (unsigned i = 0; i < DAMAGES; i++)
        printf("fallen, %s: %lu\n", damage_name(i), damages_seen[i]);
}

/* The first shape is the empty surface; a sample is too short to ask it of. */
static int each_shape_had_hard(void)
{
    int had = 1;
    for (unsigned i = 1; i < SHAPES && !is_sample; i++)
        if (hard_seen[i] == 0) {
            printf("host: no block of the fabric on any surface: %s\n", shape_names[i]);
            had = 0;
        }
    return had;
}

/* At least one for each round, of those accepted and of those refused; a sample is
 * too short here too. */
static int had_tall(unsigned long scale)
{
    print_tall(&pinned);
    return is_sample || tall_came_up(&pinned, scale);
}

static int end(int is_whole)
{
    print_seen();
    printf("rooms of W entries for each scanned row: %lu lent, %lu of them filled\n",
           bounds_lent, bounds_filled);
    printf("host: %lu cases, %lu differ\n", cases, differ);
    return differ == 0 && bounds_filled != 0 && is_whole ? 0 : 1;
}

/* On 2x2 with a module on cell (0,0) one row is scanned, and the list has W
 * entries: the bound is met. */
static void tight(void)
{
    cleared(&c, 2, 2, 1);
    ask(3, 0, 1, 1, 1, 0, 0);
    run_asked(&c);
    checked_and_listed(&c);
}

static void edges(void)
{
    every_request_code(&c);
    tight();
    edge_lengths(&c, 1, 1);
    if (is_sample)
        return;
    edge_sides(&c);
    edge_lengths(&c, 5, 3);
    edge_lengths(&c, 64, 64);
}

static int rounds(uint64_t seed, unsigned long scale)
{
    numbers_from(seed);
    edges();
    for (unsigned long i = 0; i < scale; i++)
        round_of(i);
    printf("seed %llu, %lu rounds\n", (unsigned long long)seed, scale);
    print_kinds();
    print_exchanges(&exchanged);
    int is_whole = codes_amiss() == 0 && exchanges_came_up(&exchanged);
    is_whole &= had_tall(scale);
    return end(each_shape_had_hard() && is_whole);
}

static int all34(void)
{
    numbers_from(34);
    unsigned long upright = every_way(3, 4), lying = every_way(4, 3);
    printf("3x4: %lu ways, 4x3: %lu ways\n", upright, lying);
    return end(upright == WAYS34 && lying == WAYS34);
}

int main(int argc, char **argv)
{
    both_begin();
    if (argc == 2 && strcmp(argv[1], "all34") == 0)
        return all34();
    is_sample = argc == 4 && strcmp(argv[1], "sample") == 0;
    if (argc == 3 || is_sample)
        return rounds(strtoull(argv[argc - 2], NULL, 10), strtoul(argv[argc - 1], NULL, 10));
    fprintf(stderr, "compare SEED SCALE\ncompare sample SEED SCALE\ncompare all34\n");
    return 2;
}
