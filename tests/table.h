/* The calls, what each is lent, the operations, and the codes that each may
 * give. A later call, buffer, operation or code is a row here and in table.c,
 * and what counts and compares goes by these rows. */
#ifndef TABLE_H
#define TABLE_H

#include <stdint.h>

enum { CLEAR, CHECK, RUN, LIST, CALLS };
enum { WEIGHTS, TABLE, REQUESTS, ANSWERS, ROOM, BUFFERS };

const char *call_name(unsigned call);
const char *buffer_name(unsigned buffer);
int is_lent(unsigned call, unsigned buffer);
int may_write(unsigned call, unsigned buffer);

/* "A result is code + 2^16*first count + 2^32*second": part 0 is the code. A
 * third count would be part 3. */
enum { PARTS = 4 };
unsigned part_of(uint64_t result, unsigned part);

/* ---- the calls of whoever has them under a name ------------------------- */

/* What is lent to one call. */
struct loans {
    uint64_t w, h;
    uint8_t *at[BUFFERS];
    uint64_t len[BUFFERS];
};

#define WRITTEN(b) uint8_t *b, uint64_t b##_len
#define READ(b) const uint8_t *b, uint64_t b##_len

#define DECLARE_CALLS(name)                                                                      \
    uint64_t name##_clear(uint64_t w, uint64_t h, WRITTEN(weights), WRITTEN(table));             \
    uint64_t name##_check(uint64_t w, uint64_t h, READ(weights), READ(table));                   \
    uint64_t name##_run(uint64_t w, uint64_t h, WRITTEN(weights), WRITTEN(table),                \
                        READ(requests), WRITTEN(answers));                                       \
    uint64_t name##_list(uint64_t w, uint64_t h, READ(weights), READ(table), WRITTEN(room))

#define LENT(b) l->at[b], l->len[b]

/* on_name(call, loans) makes the call. */
#define DEFINE_ON(name)                                                                          \
    static uint64_t on_##name(unsigned call, const struct loans *l)                              \
    {                                                                                            \
        switch (call) {                                                                          \
        case CLEAR: return name##_clear(l->w, l->h, LENT(WEIGHTS), LENT(TABLE));                 \
        case CHECK: return name##_check(l->w, l->h, LENT(WEIGHTS), LENT(TABLE));                 \
        case RUN: return name##_run(l->w, l->h, LENT(WEIGHTS), LENT(TABLE), LENT(REQUESTS),      \
                                    LENT(ANSWERS));                                              \
        case LIST: return name##_list(l->w, l->h, LENT(WEIGHTS), LENT(TABLE), LENT(ROOM));       \
        default: return UINT64_MAX;                                                              \
        }                                                                                        \
    }

/* ---- codes given -------------------------------------------------------- */

void count_result(unsigned call, uint64_t result);
void count_answers(const uint8_t *answers, uint64_t len);
void print_codes(void);

/* How many codes were given that may not be, or never given though they may
 * be; each is printed. */
unsigned codes_amiss(void);

#endif
