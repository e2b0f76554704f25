/* The brute force. Every function is written from a sentence of the rules,
 * quoted above it. Nothing is kept up to date step by step: each surface is
 * read afresh from the table, cell by cell. */
#include "brute.h"

#include <stdio.h>
#include <stdlib.h>
#include <string.h>

enum {
    SIDE_MAX = 64,
    CELLS_MAX = SIDE_MAX * SIDE_MAX,
    SLOTS_MAX = 256,
    REQUESTS_MAX = 512,
    RECORD = 8
};

enum { PLACE = 1, REMOVE = 2, PIN = 3, EXCHANGE = 4, SET = 6 };

/* "Byte 6 of a table record becomes its kind: 0 a module, 1 a block" (order 2).
 * A block of the fabric is called hard here: a block is one of requests. */
enum { MODULE = 0, HARD = 1 };

/* "A rectangle is (x, y, w, h), its top left cell and its size." */
struct rectangle { unsigned x, y, w, h; };

/* What the table says, read afresh. "Blocks count as modules for cells, weights,
 * scanned rows and ids" (order 2): they are among the modules. */
struct surface {
    unsigned W, H;
    unsigned count;                         /* used slots */
    struct rectangle module[SLOTS_MAX];
    int owner[SIDE_MAX][SIDE_MAX];          /* [y][x]: a module, or -1 */
    unsigned sum[SIDE_MAX + 1][SIDE_MAX + 1]; /* occupied cells above, left */
};

/* "At most W*H entries exist." */
struct list {
    unsigned count;
    struct rectangle entry[CELLS_MAX];
};

/* A thing that the rules say cannot come up has come up. */
static void contradiction(const char *what)
{
    fprintf(stderr, "brute: contradiction: %s\n", what);
    abort();
}

/* "A result is code + 2^16*first count + 2^32*second." */
static uint64_t result(unsigned code, unsigned first, unsigned second)
{
    return (uint64_t)code + ((uint64_t)first << 16) + ((uint64_t)second << 32);
}

/* "Each call returns a code and its counts; the counts are 0 when it
 * refuses." */
static uint64_t refused(unsigned code)
{
    return result(code, 0, 0);
}

/* ---- numbers in lent bytes ------------------------------------------- */

/* "wider numbers go low byte first, signed in two's complement" */
static int get_weight(const uint8_t *weights, unsigned number)
{
    unsigned u = weights[2 * number] + 256u * weights[2 * number + 1];
    return u < 32768u ? (int)u : (int)u - 65536;
}

static void set_weight(uint8_t *weights, unsigned number, int weight)
{
    unsigned u = weight < 0 ? (unsigned)(weight + 65536) : (unsigned)weight;
    weights[2 * number] = (uint8_t)(u % 256);
    weights[2 * number + 1] = (uint8_t)(u / 256);
}

/* "Bytes 0 and 1 are the id, low byte first, then x, y, w, h", then the kind and
 * a zero byte. */
static unsigned slot_id(const uint8_t *slot)
{
    return slot[0] + 256u * slot[1];
}

static struct rectangle slot_module(const uint8_t *slot)
{
    struct rectangle m = { slot[2], slot[3], slot[4], slot[5] };
    return m;
}

static int slot_is_hard(const uint8_t *slot)
{
    return slot[6] == HARD;
}

/* An id, low byte first, then x, y, w, h: what a slot begins with, and what an
 * answer has behind its code and operation. */
static void put_module(uint8_t *to, unsigned id, struct rectangle m)
{
    unsigned bytes[6] = { id % 256, id / 256, m.x, m.y, m.w, m.h };
    for (unsigned i = 0; i < 6; i++)
        to[i] = (uint8_t)bytes[i];
}

static void write_slot(uint8_t *slot, unsigned id, struct rectangle m, unsigned kind)
{
    put_module(slot, id, m);
    slot[6] = (uint8_t)kind;
    slot[7] = 0;
}

/* "A free slot is eight zero bytes, so id 0 is no id." */
static int slot_is_free(const uint8_t *slot)
{
    for (unsigned i = 0; i < RECORD; i++)
        if (slot[i] != 0)
            return 0;
    return 1;
}

/* ---- cells, and the surface read afresh ------------------------------ */

/* The cells of a rectangle: its top left cell and its size. */
static int has_cell(struct rectangle r, unsigned x, unsigned y)
{
    return r.x <= x && x < r.x + r.w && r.y <= y && y < r.y + r.h;
}

/* How many modules have this cell. */
static unsigned modules_on(const struct surface *s, unsigned x, unsigned y)
{
    unsigned n = 0;
    for (unsigned i = 0; i < s->count; i++)
        if (has_cell(s->module[i], x, y))
            n++;
    return n;
}

/* The module that has this cell, or -1: the cell is empty. */
static int module_on(const struct surface *s, unsigned x, unsigned y)
{
    for (unsigned i = 0; i < s->count; i++)
        if (has_cell(s->module[i], x, y))
            return (int)i;
    return -1;
}

/* The plain count of the occupied cells to the left of and above (x, y). */
static void count_occupied(struct surface *s)
{
    memset(s->sum, 0, sizeof s->sum);
    for (unsigned y = 0; y < s->H; y++)
        for (unsigned x = 0; x < s->W; x++)
            s->sum[y + 1][x + 1] = s->sum[y][x + 1] + s->sum[y + 1][x]
                - s->sum[y][x] + (s->owner[y][x] >= 0 ? 1u : 0u);
}

/* The modules in the table's used slots. */
static void read_modules(struct surface *s, unsigned W, unsigned H,
                         const uint8_t *table, unsigned slots)
{
    s->W = W;
    s->H = H;
    s->count = 0;
    for (unsigned i = 0; i < slots; i++)
        if (!slot_is_free(table + RECORD * i))
            s->module[s->count++] = slot_module(table + RECORD * i);
}

/* Every cell, from the modules. */
static void read_surface(struct surface *s, unsigned W, unsigned H,
                         const uint8_t *table, unsigned slots)
{
    read_modules(s, W, H, table, slots);
    for (unsigned y = 0; y < H; y++)
        for (unsigned x = 0; x < W; x++)
            s->owner[y][x] = module_on(s, x, y);
    count_occupied(s);
}

static int cell_is_empty(const struct surface *s, unsigned x, unsigned y)
{
    return s->owner[y][x] < 0;
}

/* "Weight. An empty cell holds the number of empty cells in its column,
 * itself included, counted upwards without a gap. An occupied cell in column
 * c of a module (x, y, w, h) holds -(x + w - c), the width that remains to
 * the right." */
static int weight_afresh(const struct surface *s, unsigned c, unsigned y)
{
    if (!cell_is_empty(s, c, y)) {
        struct rectangle m = s->module[s->owner[y][c]];
        return -(int)(m.x + m.w - c);
    }
    int n = 0;
    for (int row = (int)y; row >= 0 && cell_is_empty(s, c, (unsigned)row); row--)
        n++;
    return n;
}

/* "cell (x, y) is number y*W + x" */
static void write_weights(const struct surface *s, uint8_t *weights)
{
    for (unsigned y = 0; y < s->H; y++)
        for (unsigned x = 0; x < s->W; x++)
            set_weight(weights, y * s->W + x, weight_afresh(s, x, y));
}

/* ---- a surface stands ------------------------------------------------- */

/* "A surface stands with kinds 0 and 1 and every other spare byte zero"
 * (order 2). */
static int spare_is_sound(const uint8_t *slot)
{
    return (slot[6] == MODULE || slot[6] == HARD) && slot[7] == 0;
}

/* "every slot is free or has an id, w and h of at least 1, x + w <= W,
 * y + h <= H and zero spare bytes" */
static int slot_is_sound(unsigned W, unsigned H, const uint8_t *slot)
{
    struct rectangle m = slot_module(slot);
    if (slot_is_free(slot))
        return 1;
    return slot_id(slot) != 0 && m.w >= 1 && m.h >= 1
        && m.x + m.w <= W && m.y + m.h <= H && spare_is_sound(slot);
}

static int slots_are_sound(unsigned W, unsigned H,
                           const uint8_t *table, unsigned slots)
{
    for (unsigned i = 0; i < slots; i++)
        if (!slot_is_sound(W, H, table + RECORD * i))
            return 0;
    return 1;
}

/* "no two used slots have the same id" */
static int ids_differ(const uint8_t *table, unsigned slots)
{
    for (unsigned i = 0; i < slots; i++)
        for (unsigned j = 0; j < i; j++)
            if (slot_id(table + RECORD * i) == slot_id(table + RECORD * j)
                && !slot_is_free(table + RECORD * i)
                && !slot_is_free(table + RECORD * j))
                return 0;
    return 1;
}

/* "no two modules share a cell" */
static int no_cell_is_shared(const struct surface *s)
{
    for (unsigned y = 0; y < s->H; y++)
        for (unsigned x = 0; x < s->W; x++)
            if (modules_on(s, x, y) > 1)
                return 0;
    return 1;
}

/* "every weight is as above" */
static int weights_are_right(const struct surface *s, const uint8_t *weights)
{
    for (unsigned y = 0; y < s->H; y++)
        for (unsigned x = 0; x < s->W; x++)
            if (get_weight(weights, y * s->W + x) != weight_afresh(s, x, y))
                return 0;
    return 1;
}

/* "A surface stands when" all four hold. */
static int surface_stands(unsigned W, unsigned H, const uint8_t *weights,
                          const uint8_t *table, unsigned slots)
{
    struct surface s;
    if (!slots_are_sound(W, H, table, slots) || !ids_differ(table, slots))
        return 0;
    read_surface(&s, W, H, table, slots);
    return no_cell_is_shared(&s) && weights_are_right(&s, weights);
}

/* ---- empty rectangles ------------------------------------------------- */

/* "A rectangle is empty when it lies on the surface and all its cells are
 * empty." By its edges, right and bottom being the last column and row. */
static int is_empty(const struct surface *s, int left, int top,
                    int right, int bottom)
{
    if (left < 0 || top < 0 || right >= (int)s->W || bottom >= (int)s->H)
        return 0;
    return s->sum[bottom + 1][right + 1] - s->sum[top][right + 1]
        - s->sum[bottom + 1][left] + s->sum[top][left] == 0;
}

/* "It is maximal when no other empty rectangle contains it." All rectangles
 * that contain this one are walked, the nearest first; where one is not empty
 * none that contains that one is empty either, so the walk stops there. */
static int other_empty_contains(const struct surface *s, int left, int top,
                                int right, int bottom)
{
    for (int l = left; is_empty(s, l, top, right, bottom); l--)
        for (int t = top; is_empty(s, l, t, right, bottom); t--)
            for (int r = right; is_empty(s, l, t, r, bottom); r++)
                for (int b = bottom; is_empty(s, l, t, r, b); b++)
                    if (l != left || t != top || r != right || b != bottom)
                        return 1;
    return 0;
}

static void add_entry(struct list *list, int left, int top,
                      int right, int bottom)
{
    struct rectangle r = { (unsigned)left, (unsigned)top,
                           (unsigned)(right - left + 1),
                           (unsigned)(bottom - top + 1) };
    if (list->count >= CELLS_MAX)
        contradiction("more entries than cells");
    list->entry[list->count++] = r;
}

/* "The list is ordered by bottom row, then by right column, then by left
 * column, all rising." */
static int compare_entries(const void *first, const void *second)
{
    const struct rectangle *a = first, *b = second;
    int bottom = (int)(a->y + a->h) - (int)(b->y + b->h);
    int right = (int)(a->x + a->w) - (int)(b->x + b->w);
    int left = (int)a->x - (int)b->x;
    return bottom != 0 ? bottom : right != 0 ? right : left;
}

/* Every empty rectangle from this top left cell that is maximal. A rectangle
 * that is not empty makes those that contain it not empty. */
static void entries_from(const struct surface *s, int left, int top,
                         struct list *list)
{
    for (int right = left; is_empty(s, left, top, right, top); right++)
        for (int bottom = top; is_empty(s, left, top, right, bottom); bottom++)
            if (!other_empty_contains(s, left, top, right, bottom))
                add_entry(list, left, top, right, bottom);
}

/* "A row y is scanned when y = H - 1 or some module has its top row at
 * y + 1." */
static int row_is_scanned(const struct surface *s, unsigned y)
{
    if (y == s->H - 1)
        return 1;
    for (unsigned i = 0; i < s->count; i++)
        if (s->module[i].y == y + 1)
            return 1;
    return 0;
}

/* "the list never has more than W entries for each scanned row, so W times the
 * number of scanned rows is always enough room, and [...] every entry's bottom
 * row is scanned" (order 1) */
static void rows_hold(const struct surface *s, const struct list *list)
{
    unsigned entries[SIDE_MAX] = { 0 };     /* by bottom row */
    for (unsigned i = 0; i < list->count; i++) {
        unsigned bottom = list->entry[i].y + list->entry[i].h - 1;
        if (!row_is_scanned(s, bottom))
            contradiction("the bottom row of an entry is not scanned");
        if (++entries[bottom] > s->W)
            contradiction("more than W entries of one bottom row");
    }
}

/* "The list holds every maximal empty rectangle, once each and in the stated
 * order, with nothing else in it." */
static void list_maximal(const struct surface *s, struct list *list)
{
    list->count = 0;
    for (int top = 0; top < (int)s->H; top++)
        for (int left = 0; left < (int)s->W; left++)
            entries_from(s, left, top, list);
    if (list->count > s->W * s->H)
        contradiction("more entries than cells");
    rows_hold(s, list);
    qsort(list->entry, list->count, sizeof list->entry[0], compare_entries);
}

/* "A corner is an empty cell of a scanned row that stands in the last column
 * or whose right neighbour has a smaller weight." */
static int is_corner(const struct surface *s, unsigned x, unsigned y)
{
    if (!cell_is_empty(s, x, y) || !row_is_scanned(s, y))
        return 0;
    return x == s->W - 1 || weight_afresh(s, x + 1, y) < weight_afresh(s, x, y);
}

/* "The listing call reports how many corners there are." */
static unsigned count_corners(const struct surface *s)
{
    unsigned n = 0;
    for (unsigned y = 0; y < s->H; y++)
        for (unsigned x = 0; x < s->W; x++)
            if (is_corner(s, x, y))
                n++;
    return n;
}

/* "the number of scanned rows": each once, not once for each module. */
unsigned brute_scanned_rows(unsigned w, unsigned h,
                            const uint8_t *table, uint64_t table_len)
{
    struct surface s;
    unsigned n = 0;
    read_modules(&s, w, h, table, (unsigned)(table_len / RECORD));
    for (unsigned y = 0; y < h; y++)
        if (row_is_scanned(&s, y))
            n++;
    return n;
}

/* "A list record is x, y, w, h, the area as two bytes, low first, and two
 * zero bytes." */
static void write_entry(uint8_t *record, struct rectangle r)
{
    record[0] = (uint8_t)r.x;
    record[1] = (uint8_t)r.y;
    record[2] = (uint8_t)r.w;
    record[3] = (uint8_t)r.h;
    record[4] = (uint8_t)(r.w * r.h % 256);
    record[5] = (uint8_t)(r.w * r.h / 256);
    record[6] = 0;
    record[7] = 0;
}

/* ---- requests --------------------------------------------------------- */

/* "A request is 8 bytes: operation, rule, id low, id high, w, h, then bytes 6
 * and 7." */
struct request { unsigned operation, rule, id, w, h, byte6, byte7; };

static struct request read_request(const uint8_t *b)
{
    struct request q = { b[0], b[1], b[2] + 256u * b[3], b[4], b[5], b[6], b[7] };
    return q;
}

/* The surface that a request is judged on, as it stands, and what it would bring
 * about. */
struct judged {
    struct surface surface;
    struct list list;            /* its list */
    unsigned slot;               /* the slot the module has or is to have */
    struct rectangle place;      /* of the new module, or of the removed one */
};

/* "id already placed": the slot of the module with this id, or slots. */
static unsigned slot_of(const uint8_t *table, unsigned slots, unsigned id)
{
    for (unsigned i = 0; i < slots; i++)
        if (!slot_is_free(table + RECORD * i) && slot_id(table + RECORD * i) == id)
            return i;
    return slots;
}

/* "New operation 6 takes the fields of a pin and sets a block, with a pin's
 * refusals in the same order" (order 2). */
static int says_where(const struct request *q)
{
    return q->operation == PIN || q->operation == SET;
}

/* "Place and pin use the lowest free slot", and a set as a pin: it, or slots
 * when there is none. */
static unsigned lowest_free(const uint8_t *table, unsigned slots)
{
    for (unsigned i = 0; i < slots; i++)
        if (slot_is_free(table + RECORD * i))
            return i;
    return slots;
}

/* "2 remove: rule, w and h are zero. 3 pin: byte 6 is x, byte 7 is y, rule is
 * zero. Elsewhere bytes 6 and 7 are zero." */
static int zero_byte_is_not(const struct request *q)
{
    if (says_where(q))
        return q->rule != 0;
    if (q->byte6 != 0 || q->byte7 != 0)
        return 1;
    return q->operation == REMOVE && (q->rule != 0 || q->w != 0 || q->h != 0);
}

/* "all its cells empty", a position being on the surface. Cell by cell on purpose,
 * where the library tests a pin by the weights of its bottom row (order 4): by
 * weights here too, both could be wrong alike. */
static int cells_are_empty(const struct surface *s, struct rectangle r)
{
    for (unsigned y = r.y; y < r.y + r.h; y++)
        for (unsigned x = r.x; x < r.x + r.w; x++)
            if (!cell_is_empty(s, x, y))
                return 0;
    return 1;
}

/* "no position has all its cells empty": over positions and cells, not over
 * the list. */
static int no_position(const struct surface *s, unsigned w, unsigned h)
{
    for (unsigned y = 0; y + h <= s->H; y++)
        for (unsigned x = 0; x + w <= s->W; x++) {
            struct rectangle r = { x, y, w, h };
            if (cells_are_empty(s, r))
                return 0;
        }
    return 1;
}

/* "rule 0 takes the first; rule 1 the least area of the entry less that of
 * the module; rule 2 the least (H - y - h)*W + x of the entry." What is to be
 * least; for rule 0 every entry is as good as the next. */
static unsigned measure(const struct surface *s, const struct request *q,
                        struct rectangle e)
{
    if (q->rule == 1)
        return e.w * e.h - q->w * q->h;
    if (q->rule == 2)
        return (s->H - e.y - e.h) * s->W + e.x;
    return 0;
}

/* "Among list entries with room for the module". "Ties go to the earlier
 * entry." The chosen entry's number, or the count when none has room. */
static unsigned choose_entry(const struct surface *s, const struct list *list,
                             const struct request *q)
{
    unsigned best = list->count;
    for (unsigned i = 0; i < list->count; i++) {
        struct rectangle e = list->entry[i];
        if (e.w < q->w || e.h < q->h)
            continue;
        if (best == list->count
            || measure(s, q, e) < measure(s, q, list->entry[best]))
            best = i;
    }
    return best;
}

/* "The module stands in the entry's lower left corner." */
static struct rectangle place_by_rule(const struct surface *s, struct list *list,
                                      const struct request *q)
{
    list_maximal(s, list);
    unsigned i = choose_entry(s, list, q);
    if (i == list->count)
        contradiction("a position is empty and no entry has room");
    struct rectangle e = list->entry[i];
    struct rectangle place = { e.x, e.y + e.h - q->h, q->w, q->h };
    return place;
}

/* "Place and pin use the lowest free slot, so a freed slot is used again.
 * Exchange [...] keeps its slot". */
static unsigned slot_for(const uint8_t *table, unsigned slots,
                         const struct request *q)
{
    if (q->operation == REMOVE || q->operation == EXCHANGE)
        return slot_of(table, slots, q->id);
    return lowest_free(table, slots);
}

/* The table of request codes, from the top, the first that applies: "lowest
 * first", but "23, remove or exchange of a block, follows 16" (order 2). Code 0
 * leaves in j the slot and the place. */
static unsigned judge(unsigned W, unsigned H, const uint8_t *table,
                      unsigned slots, const struct request *q, struct judged *j)
{
    unsigned op = q->operation;
    int by_rule = op == PLACE || op == EXCHANGE;
    int at_place = says_where(q);
    int fresh = op == PLACE || at_place;
    struct rectangle pinned = { q->byte6, q->byte7, q->w, q->h };

    /* "11: operation not 1..4"; "operation 6 no longer gives 11" */
    if ((op < PLACE || op > EXCHANGE) && op != SET)
        return 11;
    /* "12: a byte that must be zero is not" (all) */
    if (zero_byte_is_not(q))
        return 12;
    /* "13: rule over 2" (1, 4) */
    if (by_rule && q->rule > 2)
        return 13;
    /* "14: id 0" (all) */
    if (q->id == 0)
        return 14;
    /* "15: id already placed" (1, 3, 6) */
    if (fresh && slot_of(table, slots, q->id) < slots)
        return 15;
    /* "16: id not placed" (2, 4) */
    if (!fresh && slot_of(table, slots, q->id) == slots)
        return 16;
    /* "23, remove or exchange of a block" (2, 4) */
    if (!fresh && slot_is_hard(table + RECORD * slot_of(table, slots, q->id)))
        return 23;
    /* "17: w or h is 0" (1, 3, 4, 6) */
    if (op != REMOVE && (q->w == 0 || q->h == 0))
        return 17;
    /* "18: x + w > W or y + h > H" (3, 6) */
    if (at_place && (pinned.x + pinned.w > W || pinned.y + pinned.h > H))
        return 18;
    /* "19: no free slot" (1, 3, 6) */
    if (fresh && lowest_free(table, slots) == slots)
        return 19;

    /* "Exchange is now judged with the old module in its place" (order 3): as all
     * the others, on the surface that the whole table says. */
    read_surface(&j->surface, W, H, table, slots);
    j->slot = slot_for(table, slots, q);
    if (op == REMOVE)
        j->place = slot_module(table + RECORD * j->slot);
    if (at_place)
        j->place = pinned;

    /* "20: no position has all its cells empty" (1, 4) */
    if (by_rule && no_position(&j->surface, q->w, q->h))
        return 20;
    /* "21: a cell of the place is occupied" (3, 6) */
    if (at_place && !cells_are_empty(&j->surface, j->place))
        return 21;
    /* "22: the place that the rule chose has an occupied cell" (1, 4) */
    if (by_rule)
        j->place = place_by_rule(&j->surface, &j->list, q);
    if (by_rule && !cells_are_empty(&j->surface, j->place))
        return 22;
    return 0;
}

/* An accepted request changes one table record; then every weight is worked
 * out afresh from the table. Of an exchange "the old one goes when the new one
 * stands" (order 3): the new record takes the place of the old one. */
static void carry_out(unsigned W, unsigned H, uint8_t *weights, uint8_t *table,
                      unsigned slots, const struct request *q,
                      const struct judged *j)
{
    struct surface after;
    if (q->operation == REMOVE)
        memset(table + RECORD * j->slot, 0, RECORD);
    else
        write_slot(table + RECORD * j->slot, q->id, j->place,
                   q->operation == SET ? HARD : MODULE);
    read_surface(&after, W, H, table, slots);
    write_weights(&after, weights);
}

/* "The answer is 8 bytes, written into its own part of the answers: code,
 * operation and id as they came, then x, y, w, h: of the new module, or of the
 * removed one. A refusal has four zeros there." */
static void write_answer(uint8_t *answer, unsigned code, const struct request *q,
                         struct rectangle place)
{
    struct rectangle none = { 0, 0, 0, 0 };
    struct rectangle r = code == 0 ? place : none;
    answer[0] = (uint8_t)code;
    answer[1] = (uint8_t)q->operation;
    put_module(answer + 2, q->id, r);
}

/* "A refused request changes neither weights nor table, and the block goes
 * on." */
static unsigned run_request(unsigned W, unsigned H, uint8_t *weights,
                            uint8_t *table, unsigned slots,
                            const uint8_t *request, uint8_t *answer)
{
    struct judged j;
    struct request q = read_request(request);
    memset(&j.place, 0, sizeof j.place);
    unsigned code = judge(W, H, table, slots, &q, &j);
    if (code == 0)
        carry_out(W, H, weights, table, slots, &q, &j);
    write_answer(answer, code, &q, j.place);
    return code;
}

/* ---- the four calls --------------------------------------------------- */

/* "1: W or H not in 1..64", "2: weights not W*H long", "3: table not a
 * multiple of 8 bytes, or not 1..256 slots". "The lowest code that applies is
 * given." No product is formed before the sizes are known to be small. */
static unsigned size_code(uint64_t w, uint64_t h, uint64_t weights_len,
                          uint64_t table_len)
{
    if (w < 1 || w > SIDE_MAX || h < 1 || h > SIDE_MAX)
        return 1;
    if (weights_len != 2 * w * h)
        return 2;
    if (table_len % RECORD != 0 || table_len / RECORD < 1
        || table_len / RECORD > SLOTS_MAX)
        return 3;
    return 0;
}

/* "4: block not a multiple of 8 bytes, or over 512 requests", "5: answers not
 * as long as the block". */
static unsigned block_code(uint64_t requests_len, uint64_t answers_len)
{
    if (requests_len % RECORD != 0 || requests_len / RECORD > REQUESTS_MAX)
        return 4;
    if (answers_len != requests_len)
        return 5;
    return 0;
}

/* "6: the surface does not stand", after 1, 2 and 3; run has 4 and 5 between. */
static unsigned standing_code(uint64_t w, uint64_t h, const uint8_t *weights,
                              const uint8_t *table, uint64_t table_len)
{
    unsigned slots = (unsigned)(table_len / RECORD);
    return surface_stands((unsigned)w, (unsigned)h, weights, table, slots) ? 0 : 6;
}

static unsigned examined_code(uint64_t w, uint64_t h,
                              const uint8_t *weights, uint64_t weights_len,
                              const uint8_t *table, uint64_t table_len)
{
    unsigned code = size_code(w, h, weights_len, table_len);
    return code != 0 ? code : standing_code(w, h, weights, table, table_len);
}

/* "Clear frees all slots and gives cell (x, y) weight y + 1." */
uint64_t brute_clear(uint64_t w, uint64_t h,
                     uint8_t *weights, uint64_t weights_len,
                     uint8_t *table, uint64_t table_len)
{
    unsigned code = size_code(w, h, weights_len, table_len);
    if (code != 0)
        return refused(code);
    for (uint64_t i = 0; i < table_len; i++)
        table[i] = 0;
    for (unsigned y = 0; y < h; y++)
        for (unsigned x = 0; x < w; x++)
            set_weight(weights, y * (unsigned)w + x, (int)y + 1);
    return result(0, 0, 0);
}

/* "check | used slots | 1, 2, 3, 6" */
uint64_t brute_check(uint64_t w, uint64_t h,
                     const uint8_t *weights, uint64_t weights_len,
                     const uint8_t *table, uint64_t table_len)
{
    unsigned code = examined_code(w, h, weights, weights_len, table, table_len);
    if (code != 0)
        return refused(code);
    unsigned used = 0, slots = (unsigned)(table_len / RECORD);
    for (unsigned i = 0; i < slots; i++)
        if (!slot_is_free(table + RECORD * i))
            used++;
    return result(0, used, 0);
}

/* "run a block | requests accepted | 1 to 6". "The surface is examined once
 * for a block; the requests then run in turn, each on the surface that the one
 * before left." "An empty block is done, with 0 accepted." */
uint64_t brute_run(uint64_t w, uint64_t h,
                   uint8_t *weights, uint64_t weights_len,
                   uint8_t *table, uint64_t table_len,
                   const uint8_t *requests, uint64_t requests_len,
                   uint8_t *answers, uint64_t answers_len)
{
    unsigned code = size_code(w, h, weights_len, table_len);
    if (code == 0)
        code = block_code(requests_len, answers_len);
    if (code == 0)
        code = standing_code(w, h, weights, table, table_len);
    if (code != 0)
        return refused(code);
    unsigned accepted = 0, slots = (unsigned)(table_len / RECORD);
    for (uint64_t at = 0; at < requests_len; at += RECORD)
        if (run_request((unsigned)w, (unsigned)h, weights, table, slots,
                        requests + at, answers + at) == 0)
            accepted++;
    return result(0, accepted, 0);
}

/* "list | entries, corners | 1, 2, 3, 6, 7"; "7: list room shorter than 8
 * bytes for each entry". "List writes its entries from the start of the room;
 * later bytes stay." */
uint64_t brute_list(uint64_t w, uint64_t h,
                    const uint8_t *weights, uint64_t weights_len,
                    const uint8_t *table, uint64_t table_len,
                    uint8_t *room, uint64_t room_len)
{
    struct surface s;
    struct list list;
    unsigned code = examined_code(w, h, weights, weights_len, table, table_len);
    if (code != 0)
        return refused(code);
    read_surface(&s, (unsigned)w, (unsigned)h, table, (unsigned)(table_len / RECORD));
    list_maximal(&s, &list);
    if (room_len < (uint64_t)RECORD * list.count)
        return refused(7);
    for (unsigned i = 0; i < list.count; i++)
        write_entry(room + RECORD * i, list.entry[i]);
    return result(0, list.count, count_corners(&s));
}
