/* A picture of a surface, from the input and the output of the program `freelist`. The words are those of the rules. */
#ifndef PICTURE_H
#define PICTURE_H

#include <stdbool.h>
#include <stdio.h>

enum { SIDE_MAX = 64, CELLS_MAX = SIDE_MAX * SIDE_MAX, SLOTS_MAX = 256 };

/* "A rectangle is (x, y, w, h), its top left cell and its size". */
struct rectangle { unsigned x, y, w, h; };

/* A slot of the table: id 0 is no id, the slot is free. `hard` is kind 1, "a block" of the fabric (order 2). Blocks count as
 * modules for cells, weights, scanned rows and ids. */
struct module { unsigned id; struct rectangle place; bool hard; };

/* W = H = 0 where no clear was accepted: there is no surface. The weights are those of the modules after `weigh`. */
struct surface {
    unsigned W, H;
    struct module slot[SLOTS_MAX];
    int weight[SIDE_MAX][SIDE_MAX]; /* [y][x] */
};

/* The maximal empty rectangles, in the order in which they were printed. */
struct list {
    unsigned count;
    struct rectangle entry[CELLS_MAX];
};

/* surface.c: what the rules define on a surface. */
bool same(struct rectangle a, struct rectangle b);
bool share_cell(struct rectangle a, struct rectangle b);
bool within(struct rectangle r, unsigned x, unsigned y);
bool on_surface(const struct surface *s, struct rectangle r);
void weigh(struct surface *s);
bool empty(const struct surface *s, struct rectangle r);
bool maximal(const struct surface *s, struct rectangle r);
bool scanned(const struct surface *s, unsigned y);
bool corner(const struct surface *s, unsigned x, unsigned y);
int slot_at(const struct surface *s, unsigned x, unsigned y);
unsigned count_kind(const struct surface *s, bool hard);
unsigned count_free_cells(const struct surface *s);
unsigned count_scanned_rows(const struct surface *s);
unsigned count_corners(const struct surface *s);
unsigned count_maximal(const struct surface *s);

/* replay.c: the answers in `output` replayed, its list read. False, and said on standard error, where input and output
 * do not fit together. */
bool replay(FILE *input, FILE *output, struct surface *s, struct list *list);

/* text.c, svg.c: the drawings, on standard output. */
void draw_text(const struct surface *s, const struct list *list);
void draw_svg(const struct surface *s, const struct list *list);

#endif
