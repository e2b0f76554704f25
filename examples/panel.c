/* A front panel that shows what is free on a surface of 16 by 12 cells and has no memory for a
 * list of W*H entries. It lends exactly 8*W bytes for each scanned row. After a clear and runs
 * that were not refused that is always enough: theorem chain-room-enough; and there is at most one
 * scanned row more than there are used slots: theorem scanned-rows-few, by which the panel's memory
 * is sized (crates/assured/proofs/Assured.antt, crates/meaning/proofs/Theorems.antt). */
#include <stdio.h>

#include "freelist.h"

enum { W = 16, H = 12, SLOTS = 6 };

static uint8_t weights[2 * W * H];
static uint8_t table[8 * SLOTS];
static uint8_t panel[8 * W * (SLOTS + 1)];

/* Bit y is set when row y is scanned: "when y = H - 1 or some module has its top row at y + 1";
 * a hard block counts as a module. A bit is set once, however many have that top row. One at row 0
 * has no row above it, and a free slot, being all zero, reads so too. */
static uint64_t scanned_rows(void)
{
    uint64_t rows = (uint64_t)1 << (H - 1);
    for (int i = 0; i < SLOTS; i++) {
        int top = table[8 * i + 3];
        if (1 <= top && top < H)
            rows |= (uint64_t)1 << (top - 1);
    }
    return rows;
}

static unsigned count_scanned(void)
{
    unsigned count = 0;
    for (uint64_t rows = scanned_rows(); rows != 0; rows &= rows - 1)
        count++;
    return count;
}

static int run(const char *what, const uint8_t request[8])
{
    uint8_t answer[8];
    uint64_t r = freelist_run(W, H, weights, sizeof weights, table, sizeof table,
                              request, 8, answer, 8);
    if (freelist_code(r) != 0 || answer[0] != 0) {
        printf("%s: refused with %u\n", what, freelist_code(r) != 0 ? freelist_code(r) : answer[0]);
        return 1;
    }
    printf("%s: %dx%d at (%d,%d); scanned rows: %u\n", what,
           answer[6], answer[7], answer[4], answer[5], count_scanned());
    return 0;
}

static int show(void)
{
    unsigned scanned = count_scanned(), lent = 8 * W * scanned;
    uint64_t r = freelist_list(W, H, weights, sizeof weights, table, sizeof table, panel, lent);
    if (freelist_code(r) != 0) {
        printf("the list is refused with %u\n", freelist_code(r));
        return 1;
    }
    printf("free: scanned rows: %u, bytes lent: %u, entries: %u\n", scanned, lent,
           freelist_first(r));
    for (unsigned i = 0; i < freelist_first(r); i++) {
        const uint8_t *e = panel + 8 * i;
        printf("  bottom row %d: %dx%d at (%d,%d)\n", e[1] + e[3] - 1, e[2], e[3], e[0], e[1]);
    }
    return 0;
}

int main(void)
{
    static const uint8_t arm_uart[8] = {3, 0, 1, 0, 5, 3, 0, 0};    /* id 1, 5x3, at (0,0) */
    static const uint8_t arm_i2c[8] = {3, 0, 2, 0, 4, 2, 2, 6};     /* id 2, 4x2, at (2,6) */
    static const uint8_t arm_spi[8] = {3, 0, 3, 0, 3, 4, 9, 6};     /* id 3, 3x4, at (9,6) */
    static const uint8_t arm_can[8] = {1, 2, 4, 0, 6, 2, 0, 0};     /* id 4, 6x2, rule 2 */
    static const uint8_t arm_lin[8] = {3, 0, 5, 0, 2, 1, 14, 3};    /* id 5, 2x1, at (14,3) */
    static const uint8_t arm_usb[8] = {3, 0, 6, 0, 2, 2, 14, 8};    /* id 6, 2x2, at (14,8) */
    static const uint8_t larger_i2c[8] = {4, 2, 2, 0, 5, 3, 0, 0};  /* id 2 for 5x3, rule 2 */
    static const uint8_t disarm_can[8] = {2, 0, 4, 0, 0, 0, 0, 0};

    if (freelist_code(freelist_clear(W, H, weights, sizeof weights, table, sizeof table)) != 0)
        return 1;
    if (show() ||
        run("arm UART", arm_uart) || run("arm I2C", arm_i2c) || run("arm SPI", arm_spi) || show() ||
        run("arm CAN", arm_can) || run("arm LIN", arm_lin) || run("arm USB", arm_usb) || show() ||
        run("exchange I2C", larger_i2c) || show() || run("disarm CAN", disarm_can) || show())
        return 1;
    return 0;
}
