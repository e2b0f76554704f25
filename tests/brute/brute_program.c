#include "brute_program.h"

#include "brute.h"

#include <string.h>

enum { RECORD = 8, CLEAR_OPERATION = 5, NO_SURFACE = 8 };

void program_start(struct program *p)
{
    memset(p, 0, sizeof *p);
}

static uint64_t weights_len(const struct program *p)
{
    return 2u * p->W * p->H;
}

/* "It prints one line a record, `code operation id x y w h`". The answer's
 * bytes are code, operation, id low, id high, x, y, w, h. */
static void print_answer(const uint8_t *a, FILE *out)
{
    fprintf(out, "%u %u %u %u %u %u %u\n", a[0], a[1], a[2] + 256u * a[3],
            a[4], a[5], a[6], a[7]);
}

/* An answer with operation and id as they came and four zeros. */
static void refuse(const uint8_t *record, unsigned code, uint8_t *answer)
{
    memset(answer, 0, RECORD);
    answer[0] = (uint8_t)code;
    answer[1] = record[0];
    answer[2] = record[2];
    answer[3] = record[3];
}

/* "operation 5, clear: W and H in bytes 4 and 5, the rest zero; codes 12, then
 * 1; accepted, the answer has x = y = 0 and w, h as W, H. A refused clear
 * changes nothing." */
static void answer_clear(struct program *p, const uint8_t *r, uint8_t *answer)
{
    unsigned W = r[4], H = r[5];
    if (r[1] != 0 || r[2] != 0 || r[3] != 0 || r[6] != 0 || r[7] != 0) {
        refuse(r, 12, answer);
        return;
    }
    uint64_t code = brute_clear(W, H, p->weights, 2u * W * H, p->table,
                                sizeof p->table);
    refuse(r, (unsigned)code, answer);
    if (code != 0)
        return;
    p->W = W;
    p->H = H;
    answer[6] = (uint8_t)W;
    answer[7] = (uint8_t)H;
}

/* "Before the first accepted clear every record of another operation is
 * answered 8." */
static void answer_record(struct program *p, const uint8_t *r, uint8_t *answer)
{
    if (r[0] == CLEAR_OPERATION)
        answer_clear(p, r, answer);
    else if (p->W == 0)
        refuse(r, NO_SURFACE, answer);
    else
        brute_run(p->W, p->H, p->weights, weights_len(p), p->table,
                  sizeof p->table, r, RECORD, answer, RECORD);
}

/* "It reads request records from standard input". */
void program_feed(struct program *p, const uint8_t *bytes, size_t count, FILE *out)
{
    uint8_t answer[RECORD];
    for (size_t i = 0; i < count; i++) {
        p->record[p->held++] = bytes[i];
        if (p->held < RECORD)
            continue;
        p->held = 0;
        answer_record(p, p->record, answer);
        print_answer(answer, out);
    }
}

/* "then `m x y w h area` for each list entry; then `corners C list N`, the two
 * counts (0 if no surface); and, where bytes remain after the last whole
 * record, a last line `cut N`, N being how many." */
void program_end(struct program *p, FILE *out)
{
    uint8_t room[RECORD * 64 * 64];
    uint64_t r = 0;
    if (p->W != 0)
        r = brute_list(p->W, p->H, p->weights, weights_len(p), p->table,
                       sizeof p->table, room, sizeof room);
    unsigned entries = (unsigned)(r >> 16 & 0xffff);
    unsigned corners = (unsigned)(r >> 32 & 0xffff);
    for (unsigned i = 0; i < entries; i++) {
        const uint8_t *e = room + RECORD * i;
        fprintf(out, "m %u %u %u %u %u\n", e[0], e[1], e[2], e[3],
                e[4] + 256u * e[5]);
    }
    fprintf(out, "corners %u list %u\n", corners, entries);
    if (p->held != 0)
        fprintf(out, "cut %u\n", p->held);
}
