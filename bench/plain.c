/* The four calls as one would write them in C for speed, on x86-64 (low byte
 * first, loads at any address). Works on the lent bytes themselves.
 *
 * check  One pass over the slots, one over the modules, one over the cells.
 * list   The staircase of document 000 along each scanned row, kept as a stack.
 * run    The surface is examined once; a place walks the scanned rows. */
#include "plain.h"

#include <string.h>

enum { SIDE = 64, SLOTS = 256, BLOCK = 512, RECORD = 8 };
enum { PLACE = 1, REMOVE = 2, PIN = 3, EXCHANGE = 4, SET = 6 };
enum { MODULE = 0, HARD = 1 };          /* kinds: "0 a module, 1 a block" of the fabric */

static inline int get16(const uint8_t *p)
{
    int16_t v;
    memcpy(&v, p, sizeof v);
    return v;
}

static inline void put16(uint8_t *p, int v)
{
    int16_t n = (int16_t)v;
    memcpy(p, &n, sizeof n);
}

static inline uint64_t get64(const uint8_t *p)
{
    uint64_t v;
    memcpy(&v, p, sizeof v);
    return v;
}

static inline void put64(uint8_t *p, uint64_t v) { memcpy(p, &v, sizeof v); }

/* "A result is code + 2^16*first count + 2^32*second." */
static inline uint64_t result(unsigned code, unsigned first, unsigned second)
{
    return code | (uint64_t)first << 16 | (uint64_t)second << 32;
}

/* ---- a surface ----------------------------------------------------------- */

struct module { unsigned x, y, w, h; };

struct surface {
    unsigned W, H, slots;
    uint8_t *weights, *table;           /* check and list only read them */
    unsigned used, occupied_cells;
    unsigned top;                       /* no slot from here on is used */
    uint64_t scanned;                   /* a bit for each row */
    uint64_t occupied[SIDE];            /* a word for each row, a bit for each column */
    uint8_t tops[SIDE];                 /* modules that have their top row there */
};

/* Bytes 0 and 1 are the id, then x, y, w, h, the kind and a zero byte. */
static inline unsigned id_of(uint64_t slot) { return slot & 0xffff; }

static inline struct module module_of(uint64_t slot)
{
    struct module m = { slot >> 16 & 255, slot >> 24 & 255, slot >> 32 & 255, slot >> 40 & 255 };
    return m;
}

static inline uint64_t slot_of(unsigned id, struct module m, unsigned kind)
{
    return id | m.x << 16 | (uint64_t)m.y << 24 | (uint64_t)m.w << 32 | (uint64_t)m.h << 40
        | (uint64_t)kind << 48;
}

static inline uint64_t columns_of(struct module m) { return ~(uint64_t)0 >> (SIDE - m.w) << m.x; }

static inline uint8_t *cell(const struct surface *s, unsigned x, unsigned y)
{
    return s->weights + 2 * (y * s->W + x);
}

/* A row is scanned when it is the last or some module has its top row just
 * below. */
static inline void add_top(struct surface *s, unsigned y)
{
    s->tops[y]++;
    if (y > 0)
        s->scanned |= (uint64_t)1 << (y - 1);
}

static inline void drop_top(struct surface *s, unsigned y)
{
    if (--s->tops[y] == 0 && y > 0)
        s->scanned &= ~((uint64_t)1 << (y - 1));
}

/* Codes 1, 2 and 3. */
static inline unsigned sizes_code(uint64_t w, uint64_t h, uint64_t weights_len, uint64_t table_len)
{
    if (w - 1 >= SIDE || h - 1 >= SIDE)
        return 1;
    if (weights_len != 2 * w * h)
        return 2;
    if (table_len % RECORD != 0 || table_len - 1 >= SLOTS * RECORD)
        return 3;
    return 0;
}

static void lend(struct surface *s, uint64_t w, uint64_t h, const uint8_t *weights,
                 const uint8_t *table, uint64_t table_len)
{
    s->W = (unsigned)w;
    s->H = (unsigned)h;
    s->slots = (unsigned)(table_len / RECORD);
    s->weights = (uint8_t *)weights;
    s->table = (uint8_t *)table;
    s->used = s->occupied_cells = s->top = 0;
    s->scanned = (uint64_t)1 << (h - 1);
    memset(s->occupied, 0, sizeof s->occupied);
    memset(s->tops, 0, sizeof s->tops);
}

/* ---- a surface stands ---------------------------------------------------- */

/* "has an id, w and h of at least 1, x + w <= W, y + h <= H", and "kinds 0 and
 * 1 and every other spare byte zero": bytes 6 and 7, low byte first, are 0 or 1. */
static inline int slot_stands(const struct surface *s, uint64_t slot)
{
    struct module m = module_of(slot);
    return id_of(slot) != 0 && m.w != 0 && m.h != 0
        && m.x + m.w <= s->W && m.y + m.h <= s->H && slot >> 48 <= HARD;
}

/* The used slots in turn. Only the words of the ids that occur are cleared. */
static int take_slots(struct surface *s, uint64_t used[SLOTS], uint64_t *ids)
{
    unsigned n = 0;
    for (unsigned i = 0; i < s->slots; i++) {
        uint64_t slot = get64(s->table + RECORD * i);
        if (slot == 0)
            continue;
        if (!slot_stands(s, slot))
            return 0;
        ids[id_of(slot) / 64] = 0;
        used[n++] = slot;
        s->top = i + 1;
    }
    s->used = n;
    return 1;
}

/* "no two used slots have the same id" */
static inline int take_id(uint64_t *ids, unsigned id)
{
    uint64_t bit = (uint64_t)1 << id % 64, word = ids[id / 64];
    ids[id / 64] = word | bit;
    return (word & bit) == 0;
}

/* "-(x + w - c)": counted from the column behind the module, the column. */
static inline int falls(const uint8_t *behind, unsigned w)
{
    for (int64_t i = -(int64_t)w; i < 0; i++)
        if (get16(behind + 2 * i) != (int)i)
            return 0;
    return 1;
}

/* "no two modules share a cell", and the weights of this module's cells. */
static int take_cells(struct surface *s, struct module m)
{
    uint64_t columns = columns_of(m);
    const uint8_t *behind = cell(s, m.x + m.w, m.y);
    for (unsigned y = m.y; y < m.y + m.h; y++, behind += 2 * s->W) {
        if ((s->occupied[y] & columns) != 0 || !falls(behind, m.w))
            return 0;
        s->occupied[y] |= columns;
    }
    s->occupied_cells += m.w * m.h;
    return 1;
}

static int take_modules(struct surface *s, const uint64_t *used, uint64_t *ids)
{
    for (unsigned i = 0; i < s->used; i++) {
        struct module m = module_of(used[i]);
        if (!take_id(ids, id_of(used[i])) || !take_cells(s, m))
            return 0;
        add_top(s, m.y);
    }
    return 1;
}

/* The cells of a row that are not skipped: "the number of empty cells in its
 * column, itself included, counted upwards without a gap". */
static inline int counts(const uint8_t *row, const uint8_t *above, int64_t W, int64_t *skipped)
{
    int64_t x = 0;
    while (x < W) {
        int64_t v = get16(row + 2 * x);
        if (v > 0) {
            if (get16(above + 2 * x) != v - 1 && (v != 1 || get16(above + 2 * x) > 0))
                return 0;
            x++;
        } else {
            if (v == 0)
                return 0;
            x -= v;
            *skipped -= v;
        }
    }
    return x == W;
}

/* The cells of modules are known to fall, so each cell that is not skipped is
 * empty; as many skipped as occupied, every empty one was counted. */
static int cells_count(const struct surface *s)
{
    static const uint8_t no_row[2 * SIDE];
    const uint8_t *row = s->weights, *above = no_row;
    int64_t skipped = 0;
    for (unsigned y = 0; y < s->H; y++, above = row, row += 2 * s->W)
        if (!counts(row, above, s->W, &skipped))
            return 0;
    return skipped == s->occupied_cells;
}

static int stands(struct surface *s)
{
    uint64_t used[SLOTS], ids[65536 / 64];
    return take_slots(s, used, ids) && take_modules(s, used, ids) && cells_count(s);
}

/* ---- empty rectangles ---------------------------------------------------- */

/* A list record is x, y, w, h, the area, and two zero bytes. */
static inline uint64_t record_of(unsigned x, unsigned y, unsigned w, unsigned h)
{
    return x | y << 8 | w << 16 | h << 24 | (uint64_t)(w * h) << 32;
}

struct stair { int left, height; };

/* The entries with their lower right cell at (right, y): the stairs given that
 * have an occupied cell, or the edge, below. below is the last such column. */
static inline uint8_t *write_stairs(const struct stair *from, const struct stair *top, int below,
                                    int right, int y, uint8_t *to)
{
    for (; from <= top && from->left <= below; from++, to += RECORD)
        put64(to, record_of((unsigned)from->left, (unsigned)(y + 1 - from->height),
                            (unsigned)(right + 1 - from->left), (unsigned)from->height));
    return to;
}

/* The last of the columns up to this one, or -1. */
static inline int last_column(uint64_t columns, int up_to)
{
    columns &= ~(uint64_t)0 >> (SIDE - 1 - up_to);
    return columns == 0 ? -1 : SIDE - 1 - __builtin_clzll(columns);
}

/* The first column from x on that has another weight, or W. */
static inline int64_t run_end(const uint8_t *row, int64_t x, int64_t W, int weight)
{
    while (x < W && get16(row + 2 * x) == weight)
        x++;
    return x;
}

/* The entries and corners of a scanned row, from left to right. The stairs of
 * the staircase at the cell before x stand on the stack, their heights rising;
 * the last has that cell's weight. stair[0] is none. */
static inline uint8_t *row_entries(const struct surface *s, int y, uint8_t *to, unsigned *corners)
{
    struct stair stair[SIDE + 1], *top = stair;
    const uint8_t *row = cell(s, 0, (unsigned)y);
    uint64_t below = y + 1 == (int)s->H ? ~(uint64_t)0 : s->occupied[y + 1];
    int64_t W = s->W, x = 0;
    stair[0].left = stair[0].height = 0;
    for (;;) {
        int v = x < W ? get16(row + 2 * x) : -1;
        if (v > top->height) {
            *++top = (struct stair){ (int)x, v };
            x = run_end(row, x + 1, W, v);
            continue;
        }
        if (top != stair) {             /* a corner is at x - 1 */
            int least = v > 0 ? v : 0;
            struct stair *from = top;
            while (from[-1].height > least)
                from--;
            to = write_stairs(from, top, last_column(below, (int)x - 1), (int)x - 1, y, to);
            ++*corners;
            top = from[-1].height == least ? from - 1 : from;
            top->height = least;
        }
        if (x >= W)
            return to;
        x = v > 0 ? run_end(row, x + 1, W, v) : x - v;
    }
}

/* ---- run: the surface kept up to date ------------------------------------ */

/* "the k-th empty cell below it becomes k"; and on removal the run goes on from
 * above. */
static inline void count_down(const struct surface *s, unsigned x, unsigned y, int above)
{
    uint8_t *p = cell(s, x, y);
    for (; y < s->H && get16(p) > 0; y++, p += 2 * s->W)
        put16(p, ++above);
}

static void lay(struct surface *s, struct module m)
{
    uint64_t columns = columns_of(m);
    for (unsigned y = m.y; y < m.y + m.h; y++) {
        uint8_t *behind = cell(s, m.x + m.w, y);
        for (int64_t i = -(int64_t)m.w; i < 0; i++)
            put16(behind + 2 * i, (int)i);
        s->occupied[y] |= columns;
    }
    for (unsigned x = m.x; x < m.x + m.w; x++)
        count_down(s, x, m.y + m.h, 0);
    add_top(s, m.y);
}

static void lift(struct surface *s, struct module m)
{
    uint64_t columns = columns_of(m);
    for (unsigned y = m.y; y < m.y + m.h; y++)
        s->occupied[y] &= ~columns;
    for (unsigned x = m.x; x < m.x + m.w; x++) {
        int above = m.y == 0 ? 0 : get16(cell(s, x, m.y - 1));
        uint8_t *p = cell(s, x, m.y);
        above = above > 0 ? above : 0;
        for (unsigned n = m.h; n > 0; n--, p += 2 * s->W)
            put16(p, ++above);
        count_down(s, x, m.y + m.h, above);
    }
    drop_top(s, m.y);
}

static int is_empty(const struct surface *s, struct module m)
{
    uint64_t any = 0;
    for (unsigned y = m.y; y < m.y + m.h; y++)
        any |= s->occupied[y];
    return (any & columns_of(m)) == 0;
}

/* ---- run: the choice ----------------------------------------------------- */

struct entry { unsigned x, y, w, h, area; };

static inline struct entry entry_of(uint64_t r)
{
    struct entry e = { r & 255, r >> 8 & 255, r >> 16 & 255, r >> 24 & 255, (unsigned)(r >> 32) };
    return e;
}

/* Rule 0 wants the first; rule 1 the least area; rule 2, within a row, the least
 * x. Ties go to the earlier entry. */
static inline unsigned demerit(unsigned rule, struct entry e)
{
    return rule == 0 ? 0 : rule == 1 ? e.area : e.x;
}

/* The better of the best so far and the row's entries with room for w by h. */
static int better(const struct surface *s, unsigned rule, unsigned w, unsigned h, int y,
                  struct entry *best, unsigned *least)
{
    uint64_t list[SIDE];
    unsigned corners = 0;
    const uint8_t *end = row_entries(s, y, (uint8_t *)list, &corners);
    unsigned n = (unsigned)(end - (uint8_t *)list) / RECORD;
    int found = 0;
    for (unsigned i = 0; i < n; i++) {
        struct entry e = entry_of(list[i]);
        if (e.w < w || e.h < h || demerit(rule, e) >= *least)
            continue;
        *best = e;
        *least = demerit(rule, e);
        found = 1;
    }
    return found;
}

/* Rule 2's least (H - y - h)*W + x is in the lowest row that has an entry with
 * room, so it goes upwards. A row above h - 1 has no room. */
static int choose(const struct surface *s, unsigned rule, unsigned w, unsigned h, struct module *m)
{
    struct entry e = { 0, 0, 0, 0, 0 };
    unsigned least = ~0u;
    if (w > s->W || h > s->H)
        return 0;
    uint64_t rows = s->scanned >> (h - 1) << (h - 1);
    while (rows != 0) {
        int y = rule == 2 ? SIDE - 1 - __builtin_clzll(rows) : __builtin_ctzll(rows);
        rows &= ~((uint64_t)1 << y);
        if (better(s, rule, w, h, y, &e, &least) && rule != 1)
            break;
    }
    /* "in the entry's lower left corner" */
    *m = (struct module){ e.x, e.y + e.h - h, w, h };
    return e.w != 0;
}

/* ---- run: requests ------------------------------------------------------- */

struct request { unsigned op, rule, id, w, h, b6, b7; };

static inline struct request request_of(uint64_t r)
{
    struct request q = { r & 255, r >> 8 & 255, r >> 16 & 0xffff, r >> 32 & 255,
                         r >> 40 & 255, r >> 48 & 255, (unsigned)(r >> 56) };
    return q;
}

static inline uint64_t slot_at(const struct surface *s, unsigned i) { return get64(s->table + RECORD * i); }
static inline unsigned kind_at(const struct surface *s, unsigned i) { return s->table[RECORD * i + 6]; }

/* The slot with this id, or top. */
static unsigned find(const struct surface *s, unsigned id)
{
    const uint8_t *slot = s->table, *end = slot + RECORD * s->top;
    while (slot != end && id_of(get64(slot)) != id)
        slot += RECORD;
    return (unsigned)(slot - s->table) / RECORD;
}

/* The lowest free slot, or slots. */
static unsigned free_slot(const struct surface *s)
{
    unsigned i = 0;
    if (s->used == s->slots)
        return s->slots;
    while (i < s->top && slot_at(s, i) != 0)
        i++;
    return i;
}

static void enter(struct surface *s, unsigned slot, unsigned id, struct module m, unsigned kind)
{
    lay(s, m);
    put64(s->table + RECORD * slot, slot_of(id, m, kind));
    s->used++;
    if (slot >= s->top)
        s->top = slot + 1;
}

/* Operation 6 "takes the fields of a pin". */
static inline int has_place(struct request q) { return q.op == PIN || q.op == SET; }

/* The bytes that must be zero, all together. */
static inline unsigned spare_bytes(struct request q)
{
    if (has_place(q))
        return q.rule;
    return q.op == REMOVE ? q.rule | q.w | q.h | q.b6 | q.b7 : q.b6 | q.b7;
}

/* Codes 11 to 19, and 23 behind 16. The id is searched once: the slot is its, or
 * for a new module the lowest free one. */
static inline unsigned refusal(const struct surface *s, struct request q, unsigned *slot)
{
    int by_rule = q.op == PLACE || q.op == EXCHANGE, is_new = q.op == PLACE || has_place(q);
    if (!by_rule && !has_place(q) && q.op != REMOVE)
        return 11;
    if (spare_bytes(q) != 0)
        return 12;
    if (by_rule && q.rule > 2)
        return 13;
    if (q.id == 0)
        return 14;
    *slot = find(s, q.id);
    if (is_new != (*slot == s->top))
        return is_new ? 15 : 16;
    if (!is_new && kind_at(s, *slot) == HARD)
        return 23;
    if (q.op != REMOVE && (q.w == 0 || q.h == 0))
        return 17;
    if (has_place(q) && (q.b6 + q.w > s->W || q.b7 + q.h > s->H))
        return 18;
    if (is_new)
        *slot = free_slot(s);
    return is_new && *slot == s->slots ? 19 : 0;
}

static unsigned place(struct surface *s, unsigned slot, struct request q, struct module *m)
{
    if (!choose(s, q.rule, q.w, q.h, m))
        return 20;
    enter(s, slot, q.id, *m, MODULE);
    return 0;
}

static unsigned remove_module(struct surface *s, unsigned slot, struct module *m)
{
    *m = module_of(slot_at(s, slot));
    lift(s, *m);
    put64(s->table + RECORD * slot, 0);
    s->used--;
    while (s->top > 0 && slot_at(s, s->top - 1) == 0)
        s->top--;
    return 0;
}

/* A pin, or operation 6, which "sets a block". */
static unsigned pin(struct surface *s, unsigned slot, struct request q, struct module *m)
{
    *m = (struct module){ q.b6, q.b7, q.w, q.h };
    if (!is_empty(s, *m))
        return 21;
    enter(s, slot, q.id, *m, q.op == SET ? HARD : MODULE);
    return 0;
}

/* "judged with the old module in its place, and the old one goes when the new
 * one stands"; it keeps its slot */
static unsigned exchange(struct surface *s, unsigned slot, struct request q, struct module *m)
{
    struct module old = module_of(slot_at(s, slot));
    if (!choose(s, q.rule, q.w, q.h, m))
        return 20;
    lay(s, *m);
    put64(s->table + RECORD * slot, slot_of(q.id, *m, MODULE));
    lift(s, old);
    return 0;
}

static inline unsigned serve(struct surface *s, struct request q, struct module *m)
{
    unsigned slot = 0, code = refusal(s, q, &slot);
    if (code != 0)
        return code;
    switch (q.op) {
    case PLACE: return place(s, slot, q, m);
    case REMOVE: return remove_module(s, slot, m);
    case EXCHANGE: return exchange(s, slot, q, m);
    default: return pin(s, slot, q, m);
    }
}

/* Code, operation and id as they came, then x, y, w, h; refused, four zeros. */
static inline uint64_t answer_of(unsigned code, struct request q, struct module m)
{
    uint64_t head = code | q.op << 8 | (uint64_t)q.id << 16;
    if (code != 0)
        return head;
    return head | (uint64_t)m.x << 32 | (uint64_t)m.y << 40 | (uint64_t)m.w << 48 | (uint64_t)m.h << 56;
}

/* ---- the calls ----------------------------------------------------------- */

/* Four cells at a time, as far as they go. */
static void fill_row(uint8_t *row, unsigned W, unsigned weight)
{
    unsigned x = 0;
    for (; x + 4 <= W; x += 4)
        put64(row + 2 * x, weight * 0x0001000100010001u);
    for (; x < W; x++)
        put16(row + 2 * x, (int)weight);
}

/* "Clear frees all slots and gives cell (x, y) weight y + 1." */
uint64_t plain_clear(uint64_t w, uint64_t h, WRITTEN(weights), WRITTEN(table))
{
    unsigned code = sizes_code(w, h, weights_len, table_len);
    if (code != 0)
        return result(code, 0, 0);
    memset(table, 0, table_len);
    for (unsigned y = 0; y < h; y++)
        fill_row(weights + 2 * y * w, (unsigned)w, y + 1);
    return 0;
}

uint64_t plain_check(uint64_t w, uint64_t h, READ(weights), READ(table))
{
    struct surface s;
    unsigned code = sizes_code(w, h, weights_len, table_len);
    if (code != 0)
        return result(code, 0, 0);
    lend(&s, w, h, weights, table, table_len);
    return stands(&s) ? result(0, s.used, 0) : result(6, 0, 0);
}

uint64_t plain_run(uint64_t w, uint64_t h, WRITTEN(weights), WRITTEN(table), READ(requests), WRITTEN(answers))
{
    struct surface s;
    unsigned accepted = 0, code = sizes_code(w, h, weights_len, table_len);
    if (code != 0)
        return result(code, 0, 0);
    if (requests_len % RECORD != 0 || requests_len > BLOCK * RECORD)
        return result(4, 0, 0);
    if (answers_len != requests_len)
        return result(5, 0, 0);
    lend(&s, w, h, weights, table, table_len);
    if (!stands(&s))
        return result(6, 0, 0);
    for (uint64_t at = 0; at < requests_len; at += RECORD) {
        struct request q = request_of(get64(requests + at));
        struct module m = { 0, 0, 0, 0 };
        code = serve(&s, q, &m);
        put64(answers + at, answer_of(code, q, m));
        accepted += code == 0;
    }
    return result(0, accepted, 0);
}

/* A row has at most W entries, one for each stair taken from the stack. Where
 * the room may be too short, the list goes to a buffer first. */
uint64_t plain_list(uint64_t w, uint64_t h, READ(weights), READ(table), WRITTEN(room))
{
    struct surface s;
    uint8_t buffer[RECORD * SIDE * SIDE];
    unsigned corners = 0, code = sizes_code(w, h, weights_len, table_len);
    if (code != 0)
        return result(code, 0, 0);
    lend(&s, w, h, weights, table, table_len);
    if (!stands(&s))
        return result(6, 0, 0);
    uint64_t at_most = RECORD * w * (unsigned)__builtin_popcountll(s.scanned);
    uint8_t *start = room_len >= at_most ? room : buffer, *to = start;
    for (uint64_t rows = s.scanned; rows != 0; rows &= rows - 1)
        to = row_entries(&s, __builtin_ctzll(rows), to, &corners);
    uint64_t len = (uint64_t)(to - start);
    if (len > room_len)
        return result(7, 0, 0);
    if (start == buffer && len != 0)
        memcpy(room, buffer, len);
    return result(0, (unsigned)(len / RECORD), corners);
}
