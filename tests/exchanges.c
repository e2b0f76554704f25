#include "exchanges.h"
#include "brute/brute.h"

#include <stdio.h>
#include <string.h>

enum { PLACE = 1, REMOVE = 2, EXCHANGE = 4 };

/* As document 01 judged, "on the surface without the old module": the answer to a
 * place after a remove, on a copy. */
static void answer_without(const struct loans *on, const uint8_t q[8], uint8_t answer[8])
{
    uint8_t weights[2 * 64 * 64], table[8 * 256], answers[16];
    uint8_t block[16] = { REMOVE, 0, q[2], q[3], 0, 0, 0, 0, PLACE, q[1], q[2], q[3], q[4], q[5], 0, 0 };
    memcpy(weights, on->at[WEIGHTS], on->len[WEIGHTS]);
    memcpy(table, on->at[TABLE], on->len[TABLE]);
    brute_run(on->w, on->h, weights, on->len[WEIGHTS], table, on->len[TABLE], block, 16, answers, 16);
    memcpy(answer, answers + 8, 8);
}

/* x, y, w, h of the module with the request's id. */
static const uint8_t *old_module(const struct loans *on, const uint8_t q[8])
{
    const uint8_t *slot = on->at[TABLE];
    while (memcmp(slot, q + 2, 2) != 0)
        slot += 8;
    return slot + 2;
}

/* Whether two rectangles have a column in common, or with k = 1 a row; with gap 1
 * also where one of them begins just behind the other. */
static int is_common(const uint8_t a[4], const uint8_t b[4], unsigned k, unsigned gap)
{
    return a[k] < b[k] + b[k + 2] + gap && b[k] < a[k] + a[k + 2] + gap;
}

static int is_beside(const uint8_t old[4], const uint8_t new[4])
{
    return is_common(old, new, 0, 0) || (is_common(old, new, 0, 1) && is_common(old, new, 1, 0));
}

void count_exchange(struct exchanges *n, const struct loans *on, const uint8_t q[8], const uint8_t answer[8])
{
    uint8_t without[8];
    if (q[0] != EXCHANGE || (answer[0] != 0 && answer[0] != 20))
        return;
    answer_without(on, q, without);
    if (answer[0] == 0) {
        n->accepted++;
        n->beside += is_beside(old_module(on, q), answer + 4);
        n->elsewhere += memcmp(without + 4, answer + 4, 4) != 0;
    } else {
        n->refused++;
        n->for_the_old += without[0] == 0;
    }
}

void print_exchanges(const struct exchanges *n)
{
    printf("exchanges: %lu accepted, %lu of them beside the old module, %lu elsewhere than without it; "
           "%lu refused with 20, %lu of them for the old module\n",
           n->accepted, n->beside, n->elsewhere, n->refused, n->for_the_old);
}

int exchanges_came_up(const struct exchanges *n)
{
    return n->beside != 0 && n->elsewhere != 0 && n->for_the_old != 0 && n->refused > n->for_the_old;
}
