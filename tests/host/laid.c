#include "laid.h"

#include <string.h>

static struct call_case *on;
static unsigned W, H, modules, cells;
static uint8_t taken[64][64];

void lay_none(struct call_case *c, unsigned w, unsigned h)
{
    on = c;
    W = w;
    H = h;
    modules = cells = 0;
    memset(taken, 0, sizeof taken);
    memset(c->lent[TABLE].byte, 0, 8 * 256);
    c->w = w;
    c->h = h;
    c->lent[WEIGHTS].len = 2 * w * h;
    c->lent[TABLE].len = 8 * 256;
}

static int can_lay(unsigned x, unsigned y, unsigned w, unsigned h)
{
    if (modules == 256 || x + w > W || y + h > H)
        return 0;
    for (unsigned j = y; j < y + h; j++)
        for (unsigned i = x; i < x + w; i++)
            if (taken[j][i])
                return 0;
    return 1;
}

void lay(unsigned x, unsigned y, unsigned w, unsigned h)
{
    if (!can_lay(x, y, w, h))
        return;
    uint8_t *s = on->lent[TABLE].byte + 8 * modules++;
    uint8_t slot[8] = { (uint8_t)(modules % 256), (uint8_t)(modules / 256), (uint8_t)x, (uint8_t)y,
                        (uint8_t)w, (uint8_t)h, 0, 0 };
    memcpy(s, slot, 8);
    for (unsigned j = y; j < y + h; j++)
        memset(&taken[j][x], 1, w);
    cells += w * h;
}

unsigned laid_modules(void) { return modules; }
unsigned laid_cells(void) { return cells; }
int is_laid(unsigned x, unsigned y) { return taken[y][x]; }

void lay_lying(void)
{
    unsigned w = W / 8;
    for (unsigned y = 1; y < H; y += 2)
        for (unsigned x = y / 2 % 2; x < W; x += w)
            lay(x, y, w < 2 ? 1 : w - 1, 1);
}

void lay_upright(void)
{
    unsigned h = H / 8;
    for (unsigned y = 1; y < H; y += h + 1)
        for (unsigned x = 0; x < W; x += 2)
            lay(x, y, 1, 1 + x / 2 % h);
}
