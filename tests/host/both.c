#define _DEFAULT_SOURCE
#include "both.h"
#include "brute.h"
#include "host.h"
#include "numbers.h"

#include <signal.h>
#include <stdio.h>
#include <stdlib.h>
#include <string.h>

unsigned long cases, differ;

static uint64_t last_given;                     /* by the library */
static unsigned long ways[WAYS];
static const struct call_case *current;         /* of the library, for the handler */

/* ---- the two calls ------------------------------------------------------ */

DEFINE_ON(brute)
DEFINE_ON(freelist)

static struct loans loans_of(const struct call_case *c, uint8_t *const p[BUFFERS])
{
    struct loans l = { .w = c->w, .h = c->h };
    for (unsigned i = 0; i < BUFFERS; i++) {
        l.at[i] = p[i];
        l.len[i] = c->lent[i].len;
    }
    return l;
}

static uint64_t brute_force(struct call_case *c)
{
    uint8_t *p[BUFFERS];
    for (unsigned i = 0; i < BUFFERS; i++)
        p[i] = c->lent[i].null ? NULL : c->lent[i].byte;
    struct loans l = loans_of(c, p);
    return on_brute(c->call, &l);
}

/* ---- a case that differs, in full --------------------------------------- */

static void print_hex(const char *when, const char *name, const uint8_t *byte, uint64_t len)
{
    printf("  %s %s, %llu bytes:", when, name, (unsigned long long)len);
    for (uint64_t i = 0; i < len; i++)
        printf("%s%02x", i % 32 == 0 ? "\n    " : " ", byte[i]);
    printf("\n");
}

static void print_case(const struct call_case *c)
{
    printf("%s %llu %llu, case %lu\n", call_name(c->call), (unsigned long long)c->w,
           (unsigned long long)c->h, cases);
    for (unsigned i = 0; i < BUFFERS; i++)
        if (is_lent(c->call, i))
            print_hex(c->lent[i].null ? "null" : "lent", buffer_name(i),
                      c->lent[i].byte, c->lent[i].len);
}

static void print_result(const char *of, uint64_t r)
{
    printf("  %s: code %u counts", of, part_of(r, 0));
    for (unsigned i = 1; i < PARTS; i++)
        printf(" %u", part_of(r, i));
    printf("\n");
}

/* An access outside of what was lent, or a write where none may be. */
static void on_fault(int number)
{
    printf("host: the library ended with signal %d\n", number);
    if (current != NULL)
        print_case(current);
    fflush(stdout);
    _Exit(1);
}

void both_begin(void)
{
    static const int numbers[] = { SIGSEGV, SIGBUS, SIGILL, SIGFPE, SIGTRAP, SIGABRT };
    for (unsigned i = 0; i < sizeof numbers / sizeof numbers[0]; i++)
        signal(numbers[i], on_fault);
    lending_begin();
}

/* ---- comparison ----------------------------------------------------------- */

static void copy_case(struct call_case *to, const struct call_case *from)
{
    to->call = from->call;
    to->w = from->w;
    to->h = from->h;
    for (unsigned i = 0; i < BUFFERS; i++) {
        set_bytes(&to->lent[i], from->lent[i].byte, from->lent[i].len);
        to->lent[i].null = from->lent[i].null;
    }
}

static int is_same(const struct call_case *after, uint8_t *const p[BUFFERS],
                   uint64_t expected, uint64_t given)
{
    int same = expected == given;
    for (unsigned i = 0; i < BUFFERS; i++) {
        if (!is_lent(after->call, i))
            continue;
        if (after->lent[i].len != 0 && memcmp(after->lent[i].byte, p[i], after->lent[i].len) != 0)
            same = 0;
        if (!around_is_kept(i))
            same = 0;
    }
    return same;
}

static void report(const struct call_case *before, const struct call_case *after,
                   uint8_t *const p[BUFFERS], uint64_t expected, uint64_t given)
{
    if (differ++ != 0)
        return;
    printf("host: differs:\n");
    print_case(before);
    print_result("brute force", expected);
    print_result("library", given);
    for (unsigned i = 0; i < BUFFERS; i++)
        if (is_lent(after->call, i)) {
            print_hex("brute force leaves", buffer_name(i), after->lent[i].byte, after->lent[i].len);
            print_hex("library leaves", buffer_name(i), p[i], after->lent[i].len);
            printf("  bytes around %s: %s\n", buffer_name(i), around_is_kept(i) ? "kept" : "written");
        }
}

/* Where pages are used, some of them are without write access: those of a buffer lent
 * for reading, of every buffer of a call to be refused, and of weights and table for
 * a block of which no request is accepted: "A refused request changes neither". */
static int is_read_only(const struct call_case *c, unsigned buffer, uint64_t expected)
{
    if (!may_write(c->call, buffer) || part_of(expected, 0) != 0)
        return 1;
    return c->call == RUN && part_of(expected, 1) == 0 && (buffer == WEIGHTS || buffer == TABLE);
}

static uint64_t ask_library(const struct call_case *c, uint64_t expected, uint8_t *p[BUFFERS])
{
    unsigned way = below(4);
    way = way < WAYS ? way : CANARIES;
    ways[way]++;
    for (unsigned i = 0; i < BUFFERS; i++)
        if (is_lent(c->call, i))
            p[i] = lend(i, &c->lent[i], way, is_read_only(c, i, expected));
    struct loans l = loans_of(c, p);
    current = c;
    uint64_t given = on_freelist(c->call, &l);
    current = NULL;
    return given;
}

static void count_case(const struct call_case *after, uint64_t result)
{
    cases++;
    count_result(after->call, result);
    if (after->call == RUN && part_of(result, 0) == 0)
        count_answers(after->lent[ANSWERS].byte, after->lent[ANSWERS].len);
}

uint64_t both(struct call_case *c)
{
    static struct call_case before;
    uint8_t *p[BUFFERS] = { NULL };
    copy_case(&before, c);
    uint64_t expected = brute_force(c);
    uint64_t given = last_given = ask_library(&before, expected, p);
    count_case(c, expected);
    if (!is_same(c, p, expected, given))
        report(&before, c, p, expected, given);
    for (unsigned i = 0; i < BUFFERS; i++)
        if (is_lent(c->call, i))
            give_back(i);
    return expected;
}

uint64_t library_gave(void) { return last_given; }

/* ---- counts ----------------------------------------------------------------- */

void print_seen(void)
{
    print_codes();
    printf("between canaries %lu, between guard pages %lu, on the heap %lu\n",
           ways[CANARIES], ways[GUARDS], ways[HEAP]);
}
