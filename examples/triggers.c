/* A host that sets the fabric's processor, a hard block that no trigger may use,
 * on a surface of 8 by 6 cells; then arms, exchanges and disarms triggers and
 * prints where each stands and what is free. The I2C trigger gives way to larger
 * ones beside it, and so goes on watching the bus until they are loaded. For the
 * tall one there is room only across its own cells: it is refused (20) until the
 * SPI trigger is disarmed. */
#include <stdio.h>

#include "freelist.h"

enum { W = 8, H = 6, SLOTS = 4 };

static uint8_t weights[2 * W * H];
static uint8_t table[8 * SLOTS];
static uint8_t room[8 * W * H];

static int run(const char *what, const uint8_t request[8])
{
    uint8_t answer[8];
    uint64_t r = freelist_run(W, H, weights, sizeof weights, table, sizeof table, request, 8, answer, 8);
    if (freelist_code(r) != 0) {
        printf("%s: the call is refused with %u\n", what, freelist_code(r));
        return 1;
    }
    if (answer[0] != 0)
        printf("%s: refused with %d\n", what, answer[0]);
    else
        printf("%s: %dx%d at (%d,%d)\n", what, answer[6], answer[7], answer[4], answer[5]);
    return 0;
}

static int list(void)
{
    uint64_t r = freelist_list(W, H, weights, sizeof weights, table, sizeof table, room, sizeof room);
    if (freelist_code(r) != 0) {
        printf("the list is refused with %u\n", freelist_code(r));
        return 1;
    }
    printf("free:");
    for (unsigned i = 0; i < freelist_first(r); i++) {
        const uint8_t *e = room + 8 * i;
        printf(" %dx%d at (%d,%d)%s", e[2], e[3], e[0], e[1], i + 1 < freelist_first(r) ? "," : "");
    }
    printf("; %u corners\n", freelist_second(r));
    return 0;
}

int main(void)
{
    static const uint8_t processor[8] = {6, 0, 9, 0, 2, 2, 0, 4};   /* id 9, 2x2, set at (0,4) */
    static const uint8_t arm_i2c[8] = {1, 2, 1, 0, 3, 2, 0, 0};     /* id 1, 3x2, rule 2 */
    static const uint8_t arm_spi[8] = {3, 0, 2, 0, 2, 3, 5, 1};     /* id 2, 2x3, pinned at (5,1) */
    static const uint8_t larger_i2c[8] = {4, 2, 1, 0, 5, 3, 0, 0};  /* id 1 for 5x3, rule 2 */
    static const uint8_t tall_i2c[8] = {4, 2, 1, 0, 3, 6, 0, 0};    /* id 1 for 3x6, rule 2 */
    static const uint8_t disarm_spi[8] = {2, 0, 2, 0, 0, 0, 0, 0};
    static const uint8_t no_processor[8] = {2, 0, 9, 0, 0, 0, 0, 0}; /* only a clear removes it */

    if (freelist_code(freelist_clear(W, H, weights, sizeof weights, table, sizeof table)) != 0)
        return 1;
    if (run("set processor", processor) ||
        run("arm I2C", arm_i2c) || run("arm SPI", arm_spi) || list() ||
        run("exchange I2C", larger_i2c) || list() || run("exchange I2C", tall_i2c) ||
        run("disarm SPI", disarm_spi) || run("exchange I2C", tall_i2c) ||
        run("remove processor", no_processor) || list())
        return 1;
    uint64_t r = freelist_check(W, H, weights, sizeof weights, table, sizeof table);
    printf("check: code %u, %u slots used\n", freelist_code(r), freelist_first(r));
    return 0;
}
