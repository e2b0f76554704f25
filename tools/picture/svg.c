/* The drawing as SVG: the cells, the modules, the blocks, the maximal rectangles as outlines that lie inside one another
 * where they overlap, the corners, the scanned rows, and a legend. All lengths are whole numbers. */
#include "picture.h"

enum { LEFT = 36, TOP = 36, MARKS = 30, LEGEND = 250, LINE = 20, BOTTOM = 20 };
enum { ENTRIES_SHOWN = 20, MODULES_SHOWN = 12, HEAD_LINES = 10, LEVELS_MAX = 8 };

static const char *const inks[] = {
    "#d1242f", "#0b6bcb", "#1a7f37", "#e36209", "#8250df", "#0aa5a5",
    "#d63384", "#7a4a1e", "#8a9a00", "#1b2f8a", "#00a86b", "#b08800",
};

static const char *ink(unsigned entry)
{
    return inks[entry % (sizeof inks / sizeof inks[0])];
}

/* Modules are filled light and rounded; blocks, `hard`, dark, square and hatched. */
static const char *fill(bool hard)
{
    return hard ? "fill=\"#32383f\"" : "rx=\"3\" fill=\"#6e7f91\"";
}

/* The side of a cell. */
static unsigned side(const struct surface *s)
{
    unsigned longer = s->W > s->H ? s->W : s->H;
    return longer <= 16 ? 48 : longer <= 32 ? 28 : 16;
}

/* ---- the surface ----------------------------------------------------- */

static void draw_rectangle(struct rectangle r, unsigned cell, unsigned inset, const char *style)
{
    printf("<rect x=\"%u\" y=\"%u\" width=\"%u\" height=\"%u\" %s", LEFT + r.x * cell + inset, TOP + r.y * cell + inset,
           r.w * cell - 2 * inset, r.h * cell - 2 * inset, style);
}

static void draw_cells(const struct surface *s)
{
    unsigned cell = side(s);
    struct rectangle whole = { 0, 0, s->W, s->H };
    printf("<path stroke=\"#d8dee4\" d=\"");
    for (unsigned x = 1; x < s->W; x++)
        printf("M%u %uv%u", LEFT + x * cell, TOP, s->H * cell);
    for (unsigned y = 1; y < s->H; y++)
        printf("M%u %uh%u", LEFT, TOP + y * cell, s->W * cell);
    printf("\"/>\n");
    draw_rectangle(whole, cell, 0, "fill=\"none\" stroke=\"#57606a\"/>\n");
}

static void draw_numbers(const struct surface *s)
{
    unsigned cell = side(s);
    printf("<g font-size=\"%u\" fill=\"#57606a\" text-anchor=\"middle\">\n", cell >= 28 ? 10 : 9);
    for (unsigned x = 0; x < s->W; x++)
        printf("<text x=\"%u\" y=\"%u\">%u</text>\n", LEFT + x * cell + cell / 2, TOP - 8, x);
    for (unsigned y = 0; y < s->H; y++)
        printf("<text x=\"%u\" y=\"%u\">%u</text>\n", LEFT - 14, TOP + y * cell + cell / 2 + 4, y);
    printf("</g>\n");
}

/* The size of the id's figures in a module of this width, or 0 where they have no room. */
static unsigned figure_size(unsigned id, unsigned width, unsigned cell)
{
    unsigned figures = id < 10 ? 1 : id < 100 ? 2 : id < 1000 ? 3 : id < 10000 ? 4 : 5;
    unsigned most = cell / 4 + 6;
    unsigned size = (width - 6) * 5 / (3 * figures);
    return size < 7 ? 0 : size > most ? most : size;
}

/* A line across each cell. */
static void hatch(struct rectangle r, unsigned cell)
{
    printf("<path stroke=\"#6e7681\" d=\"");
    for (unsigned y = r.y; y < r.y + r.h; y++)
        for (unsigned x = r.x; x < r.x + r.w; x++)
            printf("M%u %ul%u -%u", LEFT + x * cell + 2, TOP + (y + 1) * cell - 2, cell - 4, cell - 4);
    printf("\"/>\n");
}

static void draw_module(const struct module *m, unsigned slot, unsigned cell)
{
    struct rectangle p = m->place;
    unsigned size = figure_size(m->id, p.w * cell, cell);
    draw_rectangle(p, cell, 1, fill(m->hard));
    printf("><title>%sid %u at (%u,%u), %u×%u, slot %u</title></rect>\n", m->hard ? "block, " : "", m->id, p.x, p.y, p.w, p.h,
           slot);
    if (m->hard)
        hatch(p, cell);
    if (size > 0)
        printf("<text x=\"%u\" y=\"%u\" font-size=\"%u\" fill=\"#fff\" text-anchor=\"middle\">%u</text>\n",
               LEFT + p.x * cell + p.w * cell / 2, TOP + p.y * cell + p.h * cell / 2 + size * 7 / 20, size, m->id);
}

/* ---- the list -------------------------------------------------------- */

/* An outline's first inset leaves the corner's mark free; each level lies further in. */
static unsigned inset(unsigned cell, unsigned level)
{
    return cell / 10 + 1 + level * (cell >= 48 ? 3 : 2);
}

static unsigned count_levels(unsigned cell)
{
    unsigned levels = 1;
    while (levels < LEVELS_MAX && 2 * inset(cell, levels) + 4 <= cell)
        levels++;
    return levels;
}

/* The first level that no earlier entry has with which entry i shares a cell; where there is none, they take turns. */
static unsigned choose_level(const struct list *list, const unsigned char *level, unsigned i, unsigned levels)
{
    bool taken[LEVELS_MAX] = { false };
    for (unsigned k = 0; k < i; k++)
        if (share_cell(list->entry[k], list->entry[i]))
            taken[level[k]] = true;
    for (unsigned l = 0; l < levels; l++)
        if (!taken[l])
            return l;
    return i % levels;
}

static void draw_outlines(const struct surface *s, const struct list *list)
{
    static unsigned char level[CELLS_MAX];
    unsigned cell = side(s);
    printf("<g fill=\"none\" stroke-width=\"%s\">\n", cell >= 48 ? "2" : cell >= 28 ? "1.5" : "1");
    for (unsigned i = 0; i < list->count; i++) {
        struct rectangle e = list->entry[i];
        level[i] = (unsigned char)choose_level(list, level, i, count_levels(cell));
        draw_rectangle(e, cell, inset(cell, level[i]), "rx=\"2\" ");
        printf("stroke=\"%s\"><title>%u: (%u,%u) %u×%u</title></rect>\n", ink(i), i + 1, e.x, e.y, e.w, e.h);
    }
    printf("</g>\n");
}

/* ---- corners and scanned rows ---------------------------------------- */

/* A triangle in the lower right of a square that ends at (x, y). */
static void draw_corner(unsigned x, unsigned y, unsigned leg)
{
    printf("<path fill=\"#1f2328\" d=\"M%u %uv%uh-%uz\"/>\n", x, y - leg, leg, leg);
}

/* An arrow head that points to the left, at (x, y). */
static void draw_mark(unsigned x, unsigned y)
{
    printf("<path fill=\"#57606a\" d=\"M%u %ul8 -4v8z\"/>\n", x, y);
}

static void draw_corners(const struct surface *s)
{
    unsigned cell = side(s);
    for (unsigned y = 0; y < s->H; y++)
        for (unsigned x = 0; x < s->W; x++)
            if (corner(s, x, y))
                draw_corner(LEFT + (x + 1) * cell, TOP + (y + 1) * cell, cell / 5);
}

static void draw_scanned_rows(const struct surface *s)
{
    unsigned cell = side(s);
    for (unsigned y = 0; y < s->H; y++)
        if (scanned(s, y))
            draw_mark(LEFT + s->W * cell + 6, TOP + y * cell + cell / 2);
}

/* ---- the legend ------------------------------------------------------ */

/* The lines that so many things take: those shown, and one that counts the rest. */
static unsigned lines(unsigned count, unsigned shown)
{
    return count <= shown ? count : shown + 1;
}

static unsigned legend_height(const struct surface *s, const struct list *list)
{
    return LINE * (HEAD_LINES + lines(list->count, ENTRIES_SHOWN) + lines(count_kind(s, false), MODULES_SHOWN)
                   + lines(count_kind(s, true), MODULES_SHOWN));
}

static void draw_heading(unsigned x, unsigned y, const char *what, unsigned count)
{
    printf("<text x=\"%u\" y=\"%u\" font-weight=\"bold\">%s: %u</text>\n", x, y, what, count);
}

static unsigned draw_head(const struct surface *s, unsigned x, unsigned y)
{
    printf("<text x=\"%u\" y=\"%u\" font-weight=\"bold\">surface %u×%u</text>\n", x, y, s->W, s->H);
    printf("<text x=\"%u\" y=\"%u\">free cells: %u of %u</text>\n", x, y + LINE, count_free_cells(s), s->W * s->H);
    draw_corner(x + 12, y + 2 * LINE, 10);
    printf("<text x=\"%u\" y=\"%u\">corners: %u</text>\n", x + 22, y + 2 * LINE, count_corners(s));
    draw_mark(x + 3, y + 3 * LINE - 4);
    printf("<text x=\"%u\" y=\"%u\">scanned rows: %u</text>\n", x + 22, y + 3 * LINE, count_scanned_rows(s));
    return y + 5 * LINE;
}

static unsigned draw_rest(unsigned count, unsigned shown, unsigned x, unsigned y)
{
    if (count <= shown)
        return y;
    printf("<text x=\"%u\" y=\"%u\">and %u more</text>\n", x + 22, y, count - shown);
    return y + LINE;
}

static unsigned draw_entries(const struct list *list, unsigned x, unsigned y)
{
    draw_heading(x, y, "maximal rectangles", list->count);
    y += LINE;
    for (unsigned i = 0; i < list->count && i < ENTRIES_SHOWN; i++, y += LINE) {
        struct rectangle e = list->entry[i];
        printf("<rect x=\"%u\" y=\"%u\" width=\"11\" height=\"9\" rx=\"2\" fill=\"none\" stroke=\"%s\" stroke-width=\"2\"/>",
               x + 1, y - 9, ink(i));
        printf("<text x=\"%u\" y=\"%u\">%u: (%u,%u) %u×%u, area %u</text>\n", x + 22, y, i + 1, e.x, e.y, e.w, e.h,
               e.w * e.h);
    }
    return draw_rest(list->count, ENTRIES_SHOWN, x, y);
}

static unsigned draw_kind(const struct surface *s, const char *what, bool hard, unsigned x, unsigned y)
{
    unsigned shown = 0;
    draw_heading(x, y, what, count_kind(s, hard));
    y += LINE;
    for (unsigned i = 0; i < SLOTS_MAX && shown < MODULES_SHOWN; i++) {
        struct rectangle m = s->slot[i].place;
        if (s->slot[i].id == 0 || s->slot[i].hard != hard)
            continue;
        printf("<rect x=\"%u\" y=\"%u\" width=\"13\" height=\"11\" %s/>", x, y - 10, fill(hard));
        printf("<text x=\"%u\" y=\"%u\">id %u: (%u,%u) %u×%u, slot %u</text>\n", x + 22, y, s->slot[i].id, m.x, m.y, m.w,
               m.h, i);
        y += LINE;
        shown++;
    }
    return draw_rest(count_kind(s, hard), MODULES_SHOWN, x, y);
}

static void draw_legend(const struct surface *s, const struct list *list)
{
    unsigned x = LEFT + s->W * side(s) + MARKS;
    printf("<g font-size=\"13\" fill=\"#1f2328\">\n");
    unsigned y = draw_head(s, x, TOP + 12);
    y = draw_entries(list, x, y);
    y = draw_kind(s, "modules", false, x, y + LINE);
    draw_kind(s, "blocks", true, x, y + LINE);
    printf("</g>\n");
}

/* ---- the whole ------------------------------------------------------- */

static void begin(unsigned width, unsigned height)
{
    printf("<svg xmlns=\"http://www.w3.org/2000/svg\" width=\"%u\" height=\"%u\" viewBox=\"0 0 %u %u\" "
           "font-family=\"sans-serif\">\n", width, height, width, height);
    printf("<rect width=\"%u\" height=\"%u\" fill=\"#fff\"/>\n", width, height);
}

static void draw_no_surface(void)
{
    begin(320, 60);
    printf("<text x=\"20\" y=\"35\" font-size=\"14\">no surface: no clear was accepted</text>\n</svg>\n");
}

void draw_svg(const struct surface *s, const struct list *list)
{
    if (s->W == 0) {
        draw_no_surface();
        return;
    }
    unsigned cells = s->H * side(s), legend = legend_height(s, list);
    begin(LEFT + s->W * side(s) + MARKS + LEGEND, TOP + (cells > legend ? cells : legend) + BOTTOM);
    draw_cells(s);
    draw_numbers(s);
    for (unsigned i = 0; i < SLOTS_MAX; i++)
        if (s->slot[i].id != 0)
            draw_module(&s->slot[i], i, side(s));
    draw_outlines(s, list);
    draw_corners(s);
    draw_scanned_rows(s);
    draw_legend(s, list);
    printf("</svg>\n");
}
