/* The drawing in a terminal: the surface, a legend of its modules and blocks, and the maximal rectangles side by side, each
 * in a grid of its own where the surface is narrow. No line is longer than 120 columns. */
#include "picture.h"

enum { COLUMNS = 120, GAP = 3, NARROW = 16, SPACED = 48, ROOM = 80 };

/* A module's letter or figure goes by its slot; every block has the same sign. */
static char sign(const struct surface *s, unsigned slot)
{
    static const char letters[] = "abcdefghijklmnopqrstuvwxyzABCDEFGHIJKLMNOPQRSTUVWXYZ0123456789";
    return s->slot[slot].hard ? '@' : letters[slot % (sizeof letters - 1)];
}

static char cell(const struct surface *s, unsigned x, unsigned y)
{
    int slot = slot_at(s, x, y);
    return slot >= 0 ? sign(s, (unsigned)slot) : '.';
}

/* ---- the surface ----------------------------------------------------- */

/* Between two cells of a row, unless the surface is too wide for it. */
static const char *space(const struct surface *s)
{
    return s->W <= SPACED ? " " : "";
}

/* The columns' numbers, tens above units. */
static void draw_columns(const struct surface *s)
{
    if (s->W > 10) {
        printf("      ");
        for (unsigned x = 0; x < s->W; x++)
            printf("%s%c", space(s), x < 10 ? ' ' : (char)('0' + x / 10));
        putchar('\n');
    }
    printf("      ");
    for (unsigned x = 0; x < s->W; x++)
        printf("%s%u", space(s), x % 10);
    putchar('\n');
}

static void draw_row(const struct surface *s, unsigned y)
{
    printf("  %3u ", y);
    for (unsigned x = 0; x < s->W; x++)
        printf("%s%c", space(s), corner(s, x, y) ? '+' : cell(s, x, y));
    printf("%s\n", scanned(s, y) ? "  <" : "");
}

static void draw_kind(const struct surface *s, const char *what, bool hard)
{
    printf("\n%s: %u\n", what, count_kind(s, hard));
    if (count_kind(s, hard) > 0)
        putchar('\n');
    for (unsigned i = 0; i < SLOTS_MAX; i++) {
        struct rectangle m = s->slot[i].place;
        if (s->slot[i].id != 0 && s->slot[i].hard == hard)
            printf("  %c  id %u at (%u,%u), %ux%u, slot %u\n", sign(s, i), s->slot[i].id, m.x, m.y, m.w, m.h, i);
    }
}

static void draw_surface(const struct surface *s)
{
    printf("surface %ux%u, free cells: %u of %u\n\n", s->W, s->H, count_free_cells(s), s->W * s->H);
    draw_columns(s);
    for (unsigned y = 0; y < s->H; y++)
        draw_row(s, y);
    printf("\n  .  free cell    +  corner, a free cell too: %u    <  scanned row: %u\n", count_corners(s),
           count_scanned_rows(s));
}

/* ---- the list -------------------------------------------------------- */

/* The caption of entry i into `text`; its length. */
static unsigned caption(const struct list *list, unsigned i, char text[ROOM])
{
    struct rectangle e = list->entry[i];
    return (unsigned)snprintf(text, ROOM, "  %u: (%u,%u) %ux%u, area %u", i + 1, e.x, e.y, e.w, e.h, e.w * e.h);
}

/* The entries stand side by side, each as wide: a grid or the longest caption, and a gap. */
static unsigned entry_width(const struct surface *s, const struct list *list)
{
    char text[ROOM];
    unsigned width = s->W <= NARROW ? 1 + 2 * s->W : 0;
    for (unsigned i = 0; i < list->count; i++)
        if (caption(list, i, text) > width)
            width = caption(list, i, text);
    return width + GAP;
}

static void draw_captions(const struct list *list, unsigned first, unsigned end, unsigned width)
{
    char text[ROOM];
    for (unsigned i = first; i < end; i++) {
        caption(list, i, text);
        printf("%-*s", i + 1 < end ? (int)width : 0, text);
    }
    putchar('\n');
}

/* Row y of an entry's grid; its own cells are `#`. */
static void draw_grid_row(const struct surface *s, struct rectangle entry, unsigned y)
{
    putchar(' ');
    for (unsigned x = 0; x < s->W; x++)
        printf(" %c", within(entry, x, y) ? '#' : cell(s, x, y));
}

/* The grids of the entries from `first` up to `end`, side by side. */
static void draw_grids(const struct surface *s, const struct list *list, unsigned first, unsigned end, unsigned width)
{
    for (unsigned y = 0; y < s->H; y++) {
        for (unsigned i = first; i < end; i++) {
            draw_grid_row(s, list->entry[i], y);
            printf("%*s", i + 1 < end ? (int)(width - 1 - 2 * s->W) : 0, "");
        }
        putchar('\n');
    }
}

static void draw_list(const struct surface *s, const struct list *list)
{
    unsigned width = entry_width(s, list);
    unsigned beside = COLUMNS / width;
    printf("\nmaximal rectangles: %u\n", list->count);
    for (unsigned first = 0; first < list->count; first += beside) {
        unsigned end = first + beside < list->count ? first + beside : list->count;
        if (first == 0 || s->W <= NARROW)
            putchar('\n');
        draw_captions(list, first, end, width);
        if (s->W <= NARROW)
            draw_grids(s, list, first, end, width);
    }
}

void draw_text(const struct surface *s, const struct list *list)
{
    if (s->W == 0) {
        printf("no surface: no clear was accepted\n");
        return;
    }
    draw_surface(s);
    draw_kind(s, "modules", false);
    draw_kind(s, "blocks", true);
    draw_list(s, list);
}
