/* The deepest stack of each call: it runs on a painted stack of its own, and
 * what is no longer painted has been used. Exit status 1 where a call takes
 * more than the header says. */
#define _XOPEN_SOURCE 700
#include <stdio.h>
#include <string.h>
#include <ucontext.h>

#include "freelist.h"

enum { STACK = 1 << 18, CLEAR = 9 * 1024, OTHERS = 10 * 1024, W = 64, H = 64, SLOTS = 256, REQUESTS = 512 };

static _Alignas(16) uint8_t stack[STACK];
static uint8_t weights[2 * W * H], table[8 * SLOTS], requests[8 * REQUESTS], answers[8 * REQUESTS], room[8 * W * H];
static uint64_t result;
static ucontext_t home, away;

static void clear(void) { result = freelist_clear(W, H, weights, sizeof weights, table, sizeof table); }
static void check(void) { result = freelist_check(W, H, weights, sizeof weights, table, sizeof table); }
static void list(void) { result = freelist_list(W, H, weights, sizeof weights, table, sizeof table, room, sizeof room); }
static void run(void)
{
    result = freelist_run(W, H, weights, sizeof weights, table, sizeof table, requests, sizeof requests, answers, sizeof answers);
}

/* Requests of all five operations, by all rules, accepted and refused; pins and blocks
 * of the fabric first, so that some of these are asked away. */
static void mix(void)
{
    for (int i = 0; i < REQUESTS; i++) {
        uint8_t *q = requests + 8 * i;
        int id = 1 + i % 200;
        memset(q, 0, 8);
        q[0] = (uint8_t)(i < 20 ? 3 + 3 * (i % 2) : i < 200 ? 1 : 1 + i % 6);
        q[1] = (uint8_t)(q[0] == 1 || q[0] == 4 ? i % 3 : 0);
        q[2] = (uint8_t)id;
        if (q[0] != 2) {
            q[4] = (uint8_t)(1 + i * 7 % 9);
            q[5] = (uint8_t)(1 + i * 5 % 6);
        }
        if (q[0] == 3 || q[0] == 6) {
            q[6] = (uint8_t)(8 * (i % 8));
            q[7] = (uint8_t)(8 * (i / 8 % 8));
        }
    }
}

/* The first call is for the linker, which may look memset up on the way; the second
 * is on the same surface. */
static int depth(const char *name, void (*call)(void), int most)
{
    uint8_t weights_before[sizeof weights], table_before[sizeof table];
    memcpy(weights_before, weights, sizeof weights);
    memcpy(table_before, table, sizeof table);
    call();
    memcpy(weights, weights_before, sizeof weights);
    memcpy(table, table_before, sizeof table);
    memset(stack, 0xa5, sizeof stack);
    getcontext(&away);
    away.uc_stack.ss_sp = stack;
    away.uc_stack.ss_size = sizeof stack;
    away.uc_link = &home;
    makecontext(&away, call, 0);
    swapcontext(&home, &away);
    int used = STACK;
    while (used > 0 && stack[STACK - used] == 0xa5)
        used--;
    printf("stack of %s: %d bytes of %d, code %u\n", name, used, most, freelist_code(result));
    return freelist_code(result) != 0 || used > most;
}

int main(void)
{
    mix();
    int bad = depth("freelist_clear", clear, CLEAR);
    bad |= depth("freelist_run", run, OTHERS);
    bad |= depth("freelist_check", check, OTHERS);
    bad |= depth("freelist_list", list, OTHERS);
    if (bad)
        printf("stack: a call is refused, or takes more than the header says\n");
    return bad;
}
