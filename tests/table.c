#include "table.h"

#include <stdio.h>

enum { CODES = 256, OVER = CODES };     /* OVER counts every code that is larger */

/* A call or an operation: the codes that it may give, how often it gave each,
 * and, of a call, the buffers that it is lent and those that it may write to. */
struct row {
    const char *name;
    const int *may;
    unsigned lent, written;
    unsigned long given[CODES + 1];
};

#define GIVES(...) (const int[]){ __VA_ARGS__, -1 }
#define BIT(b) (1u << (b))
#define SURFACE (BIT(WEIGHTS) | BIT(TABLE))

/* "Codes it may give", and 0. */
static struct row calls[CALLS] = {
    [CLEAR] = { .name = "clear", .lent = SURFACE, .written = SURFACE, .may = GIVES(0, 1, 2, 3) },
    [CHECK] = { .name = "check", .lent = SURFACE, .may = GIVES(0, 1, 2, 3, 6) },
    [RUN] = { .name = "run", .lent = SURFACE | BIT(REQUESTS) | BIT(ANSWERS), .written = SURFACE | BIT(ANSWERS),
              .may = GIVES(0, 1, 2, 3, 4, 5, 6) },
    [LIST] = { .name = "list", .lent = SURFACE | BIT(ROOM), .written = BIT(ROOM), .may = GIVES(0, 1, 2, 3, 6, 7) } };

static const char *const buffers[BUFFERS] = { "weights", "table", "requests", "answers", "room" };

/* By its number; row 0 is every operation that has no row: 5, the program's clear,
 * is none in a block of requests. Code 22 is in no row: on a surface that stands it
 * is never given. */
static struct row operations[] = {
    [0] = { .name = "no operation", .may = GIVES(11) },
    [1] = { .name = "place", .may = GIVES(0, 12, 13, 14, 15, 17, 19, 20) },
    [2] = { .name = "remove", .may = GIVES(0, 12, 14, 16, 23) },
    [3] = { .name = "pin", .may = GIVES(0, 12, 14, 15, 17, 18, 19, 21) },
    [4] = { .name = "exchange", .may = GIVES(0, 12, 13, 14, 16, 23, 17, 20) },
    [6] = { .name = "set", .may = GIVES(0, 12, 14, 15, 17, 18, 19, 21) } };

enum { OPERATIONS = sizeof operations / sizeof operations[0] };

const char *call_name(unsigned call) { return calls[call].name; }
const char *buffer_name(unsigned buffer) { return buffers[buffer]; }
int is_lent(unsigned call, unsigned buffer) { return (calls[call].lent & BIT(buffer)) != 0; }
int may_write(unsigned call, unsigned buffer) { return (calls[call].written & BIT(buffer)) != 0; }

unsigned part_of(uint64_t result, unsigned part) { return (unsigned)(result >> 16 * part & 0xffff); }

/* ---- codes given -------------------------------------------------------- */

static void give(struct row *r, unsigned code) { r->given[code < CODES ? code : OVER]++; }

void count_result(unsigned call, uint64_t result) { give(&calls[call], part_of(result, 0)); }

static int has_row(unsigned operation) { return operation < OPERATIONS && operations[operation].name != NULL; }

void count_answers(const uint8_t *answers, uint64_t len)
{
    for (uint64_t i = 0; i < len; i += 8)
        give(&operations[has_row(answers[i + 1]) ? answers[i + 1] : 0], answers[i]);
}

static void print_row(const struct row *r)
{
    unsigned long n = 0;
    for (unsigned code = 0; code <= OVER; code++)
        n += r->given[code];
    printf("%s: %lu", r->name, n);
    for (unsigned code = 0; code <= OVER; code++)
        if (r->given[code] != 0)
            printf(", code %u x%lu", code, r->given[code]);
    printf("\n");
}

static int may_give(const struct row *r, unsigned code)
{
    for (const int *may = r->may; *may >= 0; may++)
        if ((unsigned)*may == code)
            return 1;
    return 0;
}

static unsigned amiss(const struct row *r)
{
    unsigned n = 0;
    for (unsigned code = 0; code <= OVER; code++) {
        if (may_give(r, code) == (r->given[code] != 0))
            continue;
        printf("%s %s code %u\n", r->name, may_give(r, code) ? "never gave" : "gave", code);
        n++;
    }
    return n;
}

void print_codes(void)
{
    for (unsigned i = 0; i < CALLS; i++)
        print_row(&calls[i]);
    for (unsigned i = 0; i < OPERATIONS; i++)
        if (has_row(i))
            print_row(&operations[i]);
}

unsigned codes_amiss(void)
{
    unsigned n = 0;
    for (unsigned i = 0; i < CALLS; i++)
        n += amiss(&calls[i]);
    for (unsigned i = 0; i < OPERATIONS; i++)
        if (has_row(i))
            n += amiss(&operations[i]);
    return n;
}
