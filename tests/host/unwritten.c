/* "A refused request changes neither weights nor table": their bytes after the
 * call are those before it, for every code. That says nothing of a byte written
 * and put back, so each request is made once more with the weights, and once
 * more with the table, on a page that cannot be written, and all of them again as
 * one block with both so. All are answered there, an exchange that is refused for
 * the old module alone too (order 3); only what is accepted is stopped. Exit status
 * 0 when exactly this is so. */
#define _DEFAULT_SOURCE
#include "host.h"

#include <setjmp.h>
#include <signal.h>
#include <stdio.h>
#include <string.h>
#include <sys/mman.h>

enum { W = 3, H = 3, PAGE = 65536, SLOTS = 2 };
enum { WEIGHTS_LEN = 2 * W * H, TABLE_LEN = 8 * SLOTS };

/* On 3x3 with two slots, id 7 at (1,1) and, in the second list, the block (order 2)
 * id 8 at (0,0): the request and its code. */
struct row { uint8_t request[8], code; };

static const struct row one_module[] = {
    { { 9, 0, 1, 0, 1, 1, 0, 0 }, 11 },
    { { 1, 0, 1, 0, 1, 1, 1, 0 }, 12 }, { { 1, 3, 1, 0, 1, 1, 0, 0 }, 13 },
    { { 1, 0, 0, 0, 1, 1, 0, 0 }, 14 }, { { 1, 0, 7, 0, 1, 1, 0, 0 }, 15 },
    { { 1, 0, 1, 0, 0, 1, 0, 0 }, 17 }, { { 1, 0, 1, 0, 2, 2, 0, 0 }, 20 },
    { { 2, 0, 7, 0, 1, 0, 0, 0 }, 12 }, { { 2, 0, 0, 0, 0, 0, 0, 0 }, 14 },
    { { 2, 0, 9, 0, 0, 0, 0, 0 }, 16 },
    { { 3, 1, 1, 0, 1, 1, 0, 0 }, 12 }, { { 3, 0, 0, 0, 1, 1, 0, 0 }, 14 },
    { { 3, 0, 7, 0, 1, 1, 0, 0 }, 15 }, { { 3, 0, 1, 0, 1, 0, 0, 0 }, 17 },
    { { 3, 0, 1, 0, 3, 1, 1, 0 }, 18 }, { { 3, 0, 1, 0, 3, 3, 0, 0 }, 21 },
    { { 4, 0, 7, 0, 1, 1, 1, 0 }, 12 }, { { 4, 3, 7, 0, 1, 1, 0, 0 }, 13 },
    { { 4, 0, 0, 0, 1, 1, 0, 0 }, 14 }, { { 4, 0, 9, 0, 1, 1, 0, 0 }, 16 },
    { { 4, 0, 7, 0, 0, 1, 0, 0 }, 17 }, { { 4, 0, 7, 0, 4, 1, 0, 0 }, 20 },
    { { 4, 0, 7, 0, 2, 2, 0, 0 }, 20 }, { { 4, 1, 7, 0, 2, 2, 0, 0 }, 20 },
    { { 4, 2, 7, 0, 2, 2, 0, 0 }, 20 }, { { 4, 0, 7, 0, 3, 3, 0, 0 }, 20 },
    { { 4, 1, 7, 0, 3, 2, 0, 0 }, 20 }, { { 4, 2, 7, 0, 2, 3, 0, 0 }, 20 },
    { { 6, 1, 1, 0, 1, 1, 0, 0 }, 12 }, { { 6, 0, 0, 0, 1, 1, 0, 0 }, 14 },
    { { 6, 0, 7, 0, 1, 1, 0, 0 }, 15 }, { { 6, 0, 1, 0, 1, 0, 0, 0 }, 17 },
    { { 6, 0, 1, 0, 3, 1, 1, 0 }, 18 }, { { 6, 0, 1, 0, 3, 3, 0, 0 }, 21 } };
static const struct row full_table[] = {
    { { 1, 0, 1, 0, 1, 1, 0, 0 }, 19 }, { { 3, 0, 1, 0, 1, 1, 2, 2 }, 19 },
    { { 6, 0, 1, 0, 1, 1, 2, 2 }, 19 },
    { { 2, 0, 8, 0, 0, 0, 0, 0 }, 23 }, { { 4, 0, 8, 0, 1, 1, 0, 0 }, 23 },
    { { 4, 0, 8, 0, 0, 0, 0, 0 }, 23 }, { { 4, 0, 8, 0, 4, 1, 0, 0 }, 23 },
    { { 4, 0, 7, 0, 4, 1, 0, 0 }, 20 }, { { 4, 0, 7, 0, 2, 2, 0, 0 }, 20 },
    { { 4, 1, 7, 0, 2, 2, 0, 0 }, 20 }, { { 4, 2, 7, 0, 2, 2, 0, 0 }, 20 } };
/* One module on all of 3x3: no exchange has a place. */
static const struct row full_surface[] = {
    { { 4, 0, 7, 0, 1, 1, 0, 0 }, 20 }, { { 4, 1, 7, 0, 3, 3, 0, 0 }, 20 },
    { { 4, 2, 7, 0, 3, 1, 0, 0 }, 20 }, { { 4, 0, 7, 0, 4, 4, 0, 0 }, 20 } };
/* On the first list's surface: each writes to both pages. */
static const struct row accepted[] = {
    { { 1, 0, 1, 0, 1, 1, 0, 0 }, 0 }, { { 2, 0, 7, 0, 0, 0, 0, 0 }, 0 },
    { { 3, 0, 1, 0, 1, 1, 0, 0 }, 0 }, { { 6, 0, 1, 0, 1, 1, 0, 0 }, 0 },
    { { 4, 0, 7, 0, 1, 1, 0, 0 }, 0 }, { { 4, 2, 7, 0, 3, 1, 0, 0 }, 0 } };

static uint8_t *weights, *table;
static sigjmp_buf before;
static unsigned cases, wrong;

static void on_fault(int number) { siglongjmp(before, number); }

static uint8_t *new_page(void)
{
    void *p = mmap(NULL, PAGE, PROT_READ | PROT_WRITE, MAP_PRIVATE | MAP_ANONYMOUS, -1, 0);
    return p == MAP_FAILED ? NULL : p;
}

/* The request's code; 255 where the block is refused. */
static unsigned ask(const uint8_t request[8])
{
    uint8_t answer[8];
    uint64_t r = freelist_run(W, H, weights, WEIGHTS_LEN, table, TABLE_LEN, request, 8, answer, 8);
    return freelist_code(r) == 0 ? answer[0] : 255;
}

static void close_page(uint8_t *page) { wrong += mprotect(page, PAGE, PROT_READ) != 0; }
static void open_page(uint8_t *page) { wrong += mprotect(page, PAGE, PROT_READ | PROT_WRITE) != 0; }

/* The same with this page closed to writes: 1 where that stops it. */
static int is_stopped(const struct row *r, uint8_t *page)
{
    volatile int stopped = 1;
    close_page(page);
    if (sigsetjmp(before, 1) == 0) {
        wrong += ask(r->request) != r->code;
        stopped = 0;
    }
    open_page(page);
    return stopped;
}

/* The bytes of the surface, taken down and put back. */
struct surface { uint8_t weights[WEIGHTS_LEN], table[TABLE_LEN]; };

static struct surface taken_down(void)
{
    struct surface s;
    memcpy(s.weights, weights, WEIGHTS_LEN);
    memcpy(s.table, table, TABLE_LEN);
    return s;
}

static void put_back(const struct surface *s)
{
    memcpy(weights, s->weights, WEIGHTS_LEN);
    memcpy(table, s->table, TABLE_LEN);
}

static int is_kept(const struct surface *s)
{
    return memcmp(weights, s->weights, WEIGHTS_LEN) == 0 && memcmp(table, s->table, TABLE_LEN) == 0;
}

static void one(const struct row *r)
{
    struct surface was = taken_down();
    unsigned code = ask(r->request);
    int kept = is_kept(&was);
    int writes_weights = is_stopped(r, weights), writes_table = is_stopped(r, table);
    cases++;
    if (code == r->code && kept && is_kept(&was) && !writes_weights && !writes_table)
        return;
    wrong++;
    printf("unwritten: operation %u: code %u, not %u; %s;%s%s\n", r->request[0], code, r->code,
           kept ? "kept" : "changed", writes_weights ? " writes weights" : "", writes_table ? " writes table" : "");
}

/* All of them as one block, with both pages closed. */
static void in_one_block(const struct row *rows, unsigned n)
{
    uint8_t requests[8 * 64], answers[8 * 64];
    for (unsigned i = 0; i < n; i++)
        memcpy(requests + 8 * i, rows[i].request, 8);
    close_page(weights);
    close_page(table);
    if (sigsetjmp(before, 1) == 0) {
        wrong += freelist_run(W, H, weights, WEIGHTS_LEN, table, TABLE_LEN, requests, 8 * n, answers, 8 * n) != 0;
        for (unsigned i = 0; i < n; i++)
            wrong += answers[8 * i] != rows[i].code;
    } else {
        wrong++;
        printf("unwritten: a block of %u refused requests writes\n", n);
    }
    open_page(weights);
    open_page(table);
}

static void all(const struct row *rows, unsigned n)
{
    for (unsigned i = 0; i < n; i++)
        one(&rows[i]);
    in_one_block(rows, n);
}

/* That a page so closed does stop a write. */
static void is_seen(const struct row *r)
{
    struct surface was = taken_down();
    int writes_weights = is_stopped(r, weights);
    put_back(&was);
    int writes_table = is_stopped(r, table);
    put_back(&was);
    if (writes_weights && writes_table)
        return;
    wrong++;
    printf("unwritten: operation %u is not stopped\n", r->request[0]);
}

#define ALL(rows) all(rows, sizeof rows / sizeof rows[0])

int main(void)
{
    static const uint8_t made[2][8] = { { 3, 0, 7, 0, 1, 1, 1, 1 }, { 6, 0, 8, 0, 1, 1, 0, 0 } };
    static const uint8_t whole[8] = { 3, 0, 7, 0, W, H, 0, 0 };
    weights = new_page();
    table = new_page();
    if (weights == NULL || table == NULL || signal(SIGSEGV, on_fault) == SIG_ERR)
        return 2;
    freelist_clear(W, H, weights, WEIGHTS_LEN, table, TABLE_LEN);
    wrong += ask(made[0]) != 0;
    ALL(one_module);
    for (unsigned i = 0; i < sizeof accepted / sizeof accepted[0]; i++)
        is_seen(&accepted[i]);
    wrong += ask(made[1]) != 0;
    ALL(full_table);
    freelist_clear(W, H, weights, WEIGHTS_LEN, table, TABLE_LEN);
    wrong += ask(whole) != 0;
    ALL(full_surface);
    printf("unwritten: %u refused requests, %u wrong\n", cases, wrong);
    return wrong != 0;
}
