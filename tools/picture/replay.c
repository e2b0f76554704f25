/* Replays the answers that the program printed. Where a module stands is taken from the answer and never worked out
 * anew; but each answer must fit its record and the surface before it, and the list and the counts must fit the surface
 * that the last answer left. */
#include "picture.h"

#include <stdarg.h>
#include <string.h>

enum { RECORD = 8, LINE_ROOM = 64, NUMBER_MAX = 65535 };
enum { PLACE = 1, REMOVE = 2, PIN = 3, EXCHANGE = 4, CLEAR = 5, SET = 6 };

/* The two files; of the output, the line read last and its number. */
struct reading {
    FILE *input, *output;
    unsigned long line;
    char text[LINE_ROOM];
};

struct answer { unsigned code, operation, id; struct rectangle place; };

/* Says where and why input and output do not fit together; nothing where one of them could not be read. */
static bool fault(const struct reading *r, const char *format, ...)
{
    va_list arguments;
    if (ferror(r->input) || ferror(r->output))
        return false;
    va_start(arguments, format);
    fprintf(stderr, "picture: line %lu of the output, `%s`: ", r->line, r->text);
    vfprintf(stderr, format, arguments);
    fputc('\n', stderr);
    va_end(arguments);
    return false;
}

/* ---- lines ----------------------------------------------------------- */

/* The next line; false where the output ends before its end. What no line of the program holds becomes `?`, and what is
 * longer than any of them is cut off: neither can be taken for one of them. */
static bool next_line(struct reading *r)
{
    unsigned length = 0;
    int c;
    while ((c = getc(r->output)) != EOF && c != '\n')
        if (length < LINE_ROOM - 1)
            r->text[length++] = c >= ' ' && c <= '~' ? (char)c : '?';
    r->text[length] = '\0';
    r->line++;
    return c == '\n';
}

/* A number up to 65535, without a leading zero: what follows it, or NULL where there is none. */
static const char *read_number(const char *text, unsigned *number)
{
    const char *start = text;
    *number = 0;
    while (*text >= '0' && *text <= '9' && *number <= NUMBER_MAX)
        *number = *number * 10 + (unsigned)(*text++ - '0');
    if (text == start || *number > NUMBER_MAX || (*start == '0' && text > start + 1))
        return NULL;
    return text;
}

/* So many numbers, one space between two, and nothing else. */
static bool read_numbers(const char *text, unsigned *number, unsigned count)
{
    for (unsigned i = 0; i < count; i++) {
        if (i > 0 && *text++ != ' ')
            return false;
        text = read_number(text, &number[i]);
        if (text == NULL)
            return false;
    }
    return *text == '\0';
}

/* "one line a record, `code operation id x y w h`" */
static bool read_answer(const char *text, struct answer *a)
{
    unsigned n[7];
    if (!read_numbers(text, n, 7))
        return false;
    *a = (struct answer){ n[0], n[1], n[2], { n[3], n[4], n[5], n[6] } };
    return true;
}

/* ---- answers --------------------------------------------------------- */

/* The slot with this id, or NULL; id 0 asks for a free slot, the lowest. */
static struct module *find(struct surface *s, unsigned id)
{
    for (unsigned i = 0; i < SLOTS_MAX; i++)
        if (s->slot[i].id == id)
            return &s->slot[i];
    return NULL;
}

/* The slot with this id, which a remove or an exchange may take: "23, remove or exchange of a block". */
static struct module *find_module(const struct reading *r, struct surface *s, unsigned id)
{
    struct module *slot = id == 0 ? NULL : find(s, id);
    if (slot == NULL)
        fault(r, "id %u is not placed", id);
    else if (slot->hard)
        fault(r, "id %u is a block, which only a clear removes", id);
    else
        return slot;
    return NULL;
}

/* Clear frees all slots; it "removes them too", the blocks. */
static bool replay_clear(const struct reading *r, struct surface *s, const struct answer *a, const unsigned char *record)
{
    struct rectangle whole = { 0, 0, record[4], record[5] };
    if (a->id != 0 || whole.w < 1 || whole.w > SIDE_MAX || whole.h < 1 || whole.h > SIDE_MAX)
        return fault(r, "no such clear can be accepted");
    if (!same(a->place, whole))
        return fault(r, "the record clears %ux%u", whole.w, whole.h);
    memset(s, 0, sizeof *s);
    s->W = whole.w;
    s->H = whole.h;
    return true;
}

static bool replay_remove(const struct reading *r, struct surface *s, const struct answer *a)
{
    struct module *slot = find_module(r, s, a->id);
    if (slot == NULL)
        return false;
    if (!same(a->place, slot->place))
        return fault(r, "id %u stands at %u %u %u %u", a->id, slot->place.x, slot->place.y, slot->place.w, slot->place.h);
    memset(slot, 0, sizeof *slot);
    return true;
}

/* A module or a block comes to stand in this slot, where the answer says. */
static bool stand(const struct reading *r, struct surface *s, struct module *slot, const struct answer *a)
{
    if (!on_surface(s, a->place))
        return fault(r, "the place is not on the surface");
    for (unsigned i = 0; i < SLOTS_MAX; i++)
        if (s->slot[i].id != 0 && share_cell(s->slot[i].place, a->place))
            return fault(r, "a cell of the place is occupied by id %u", s->slot[i].id);
    *slot = (struct module){ a->id, a->place, a->operation == SET };
    return true;
}

/* "Place and pin use the lowest free slot"; operation 6 "takes the fields of a pin and sets a block". */
static bool replay_place(const struct reading *r, struct surface *s, const struct answer *a, const unsigned char *record)
{
    struct module *slot = find(s, 0);
    if (a->id == 0 || find(s, a->id) != NULL)
        return fault(r, "id %u is no id or is already placed", a->id);
    if (slot == NULL)
        return fault(r, "no slot is free");
    if (record[0] != PLACE && (a->place.x != record[6] || a->place.y != record[7]))
        return fault(r, "the record's place is (%u,%u)", record[6], record[7]);
    return stand(r, s, slot, a);
}

/* "Exchange is now judged with the old module in its place, and the old one goes when the new one stands" (order 3); it
 * keeps its slot. */
static bool replay_exchange(const struct reading *r, struct surface *s, const struct answer *a)
{
    struct module *slot = find_module(r, s, a->id);
    return slot != NULL && stand(r, s, slot, a);
}

static bool replay_accepted(const struct reading *r, struct surface *s, const struct answer *a, const unsigned char *record)
{
    if (record[0] == CLEAR)
        return replay_clear(r, s, a, record);
    if (record[0] == REMOVE)
        return replay_remove(r, s, a);
    if (record[0] < PLACE || record[0] > SET)
        return fault(r, "operation %u cannot be accepted", record[0]);
    if (a->place.w != record[4] || a->place.h != record[5])
        return fault(r, "the record's size is %ux%u", record[4], record[5]);
    return record[0] == EXCHANGE ? replay_exchange(r, s, a) : replay_place(r, s, a, record);
}

/* The answer to this record: "operation and id as they came"; "a refusal has four zeros" and changes nothing. */
static bool replay_record(struct reading *r, struct surface *s, const unsigned char *record)
{
    struct rectangle zeros = { 0, 0, 0, 0 };
    unsigned id = record[2] + 256u * record[3];
    struct answer a;
    if (!next_line(r) || !read_answer(r->text, &a))
        return fault(r, "no answer to a record");
    if (a.operation != record[0] || a.id != id)
        return fault(r, "the record has operation %u and id %u", record[0], id);
    if (a.code == 0)
        return replay_accepted(r, s, &a, record);
    return same(a.place, zeros) || fault(r, "a refusal has four zeros");
}

/* Every whole record; the number of bytes after the last goes to *cut. */
static bool replay_records(struct reading *r, struct surface *s, unsigned *cut)
{
    unsigned char record[RECORD];
    size_t got;
    while ((got = fread(record, 1, RECORD, r->input)) == RECORD)
        if (!replay_record(r, s, record))
            return false;
    *cut = (unsigned)got;
    return true;
}

/* ---- the list -------------------------------------------------------- */

/* "ordered by bottom row, then by right column, then by left column, all rising" */
static bool rising(struct rectangle a, struct rectangle b)
{
    if (a.y + a.h != b.y + b.h)
        return a.y + a.h < b.y + b.h;
    if (a.x + a.w != b.x + b.w)
        return a.x + a.w < b.x + b.w;
    return a.x < b.x;
}

/* "`m x y w h area` for each list entry" */
static bool read_entry(const struct reading *r, const struct surface *s, struct list *list)
{
    unsigned n[5];
    if (r->text[1] != ' ' || !read_numbers(r->text + 2, n, 5))
        return fault(r, "not an entry of a list");
    struct rectangle e = { n[0], n[1], n[2], n[3] };
    if (!on_surface(s, e))
        return fault(r, "the entry is not on the surface");
    if (!empty(s, e))
        return fault(r, "a cell of the entry is occupied");
    if (!maximal(s, e))
        return fault(r, "an empty rectangle contains the entry");
    if (n[4] != e.w * e.h)
        return fault(r, "the area is %u", e.w * e.h);
    if (list->count > 0 && !rising(list->entry[list->count - 1], e))
        return fault(r, "the list is out of order");
    if (list->count == CELLS_MAX)
        return fault(r, "more entries than cells");
    list->entry[list->count++] = e;
    return true;
}

/* A line that can be told beforehand. */
static bool expect(const struct reading *r, const char *format, unsigned first, unsigned second)
{
    char expected[LINE_ROOM];
    snprintf(expected, sizeof expected, format, first, second);
    return strcmp(r->text, expected) == 0 || fault(r, "the surface and the input give `%s`", expected);
}

/* The entries, then "`corners C list N`, the two counts (0 if no surface)". */
static bool read_list(struct reading *r, const struct surface *s, struct list *list)
{
    bool line;
    while ((line = next_line(r)) && r->text[0] == 'm')
        if (!read_entry(r, s, list))
            return false;
    if (!line)
        return fault(r, "the output ends before its counts");
    if (!expect(r, "corners %u list %u", count_corners(s), count_maximal(s)))
        return false;
    return list->count == count_maximal(s) || fault(r, "%u entries are printed", list->count);
}

/* "where bytes remain after the last whole record, a last line `cut N`"; then the output ends. */
static bool read_end(struct reading *r, unsigned cut)
{
    if (cut != 0 && !next_line(r))
        return fault(r, "%u bytes remain after the last whole record", cut);
    if (cut != 0 && !expect(r, "cut %u", cut, 0))
        return false;
    return getc(r->output) == EOF || fault(r, "the output goes on after this line");
}

bool replay(FILE *input, FILE *output, struct surface *s, struct list *list)
{
    struct reading r = { input, output, 0, "" };
    unsigned cut = 0;
    memset(s, 0, sizeof *s);
    list->count = 0;
    if (!replay_records(&r, s, &cut))
        return false;
    weigh(s);
    return read_list(&r, s, list) && read_end(&r, cut);
}
