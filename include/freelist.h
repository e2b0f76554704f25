/* freelist: the memory of a placer for a partially reconfigurable FPGA.
 *
 * For x86-64 Linux (System V calling convention), C11 or C++11. Link with
 * -lfreelist. The library calls memcpy and memset and nothing else. It has no
 * heap, no global and no file, and keeps nothing between calls: everything is
 * in the buffers that you lend. Calls on different buffers may run in different
 * threads at once. freelist_clear takes at most 9 KiB of stack, the other calls
 * 10 KiB (measured by the tests).
 *
 * ---- What you lend -------------------------------------------------------
 *
 * w and h are the columns and rows of the surface, 1 to 64 each. Column 0 is at
 * the left, row 0 at the top. A buffer is a pointer and its length in bytes; an
 * empty one may be NULL with length 0. Buffers lent to one call share no byte.
 * No address needs to be aligned. Numbers of two bytes go low byte first.
 *
 * weights   exactly 2*w*h bytes. Cell (x, y) is the signed 16-bit number at byte
 *           2*(y*w + x), two's complement. An empty cell holds how many empty
 *           cells its column has from it upwards without a gap; a cell that a
 *           module occupies, minus the columns of the module from it rightwards.
 *
 * table     1 to 256 slots of 8 bytes; all zero is a free slot.
 *
 *               byte    0    1    2   3   4   5    6    7
 *                     +---------+---+---+---+---+------+---+
 *                     |   id    | x | y | w | h | kind | 0 |   id 1 to 65535
 *                     +---------+---+---+---+---+------+---+
 *
 *           kind 0 is a module, kind 1 a hard block: a processor or memory block
 *           of the fabric. What is said here of modules, their cells, weights, rows
 *           and ids holds of hard blocks too; but no request moves or removes one.
 *           It is removed only by freelist_clear.
 *
 * requests  0 to 512 requests of 8 bytes.
 *
 *               byte    0    1    2    3    4   5   6   7
 *                     +----+----+---------+---+---+---+---+
 *                     | op |rule|   id    | w | h | a | b |
 *                     +----+----+---------+---+---+---+---+
 *
 *           op 1 place      by rule; a = b = 0
 *           op 2 remove     rule = w = h = a = b = 0
 *           op 3 pin        at x = a, y = b; rule = 0
 *           op 4 exchange   the module with this id for another, by rule; a = b =
 *                           0. One of the same size moves. Judged with the old one
 *                           in its place: the new one shares no cell with it. The
 *                           id keeps its slot, no free one is needed. The old one
 *                           goes when the new one stands: answered 0, its cells
 *                           are empty for the next request, of the same block
 *                           too. So load the new one and stop the old one before
 *                           you load what a later answer says.
 *           op 6 set        a hard block, at x = a, y = b; rule = 0
 *
 *           Place, pin and set take the lowest free slot.
 *
 *           A rule chooses among the entries with room for the module in the list
 *           that freelist_list would give just before the request: 0 the first; 1
 *           the one with least area to spare; 2 the least (H - y - h)*W + x of the
 *           entry. Ties go to the earlier entry. The module stands in the entry's
 *           lower left corner.
 *
 * answers   as long as the requests: 8 bytes to each, in turn.
 *
 *               byte    0     1    2    3    4   5   6   7
 *                     +-----+----+---------+---+---+---+---+
 *                     |code | op |   id    | x | y | w | h |
 *                     +-----+----+---------+---+---+---+---+
 *
 *           op and id as they came; x, y, w, h of the new module or hard block or
 *           of the module removed, four zeros where the request is refused.
 *
 * room      8 bytes for each entry of the list or more. For a surface that stands
 *           8*w bytes for each scanned row are always enough, and so are 8*w*h and
 *           8*w*(slots + 1). The scanned rows are the last row, and each row just
 *           above the top row of some used slot's module, in the table that is lent
 *           with the room; each counts once, however many modules begin below it,
 *           and a module whose top row is 0 adds none.
 *
 *               byte    0   1   2   3   4    5   6   7
 *                     +---+---+---+---+---------+---+---+
 *                     | x | y | w | h |  area   | 0 | 0 |
 *                     +---+---+---+---+---------+---+---+
 *
 * ---- What you get --------------------------------------------------------
 *
 * A result is code + 2^16 * first count + 2^32 * second count. The lowest code
 * that applies is given. With any code but 0 both counts are 0 and the buffers
 * are as they were.
 *
 *     code  given exactly when                              by
 *       0   done                                            all
 *       1   w or h is not in 1..64                          all
 *       2   weights are not 2*w*h bytes long                all
 *       3   table is not 8 bytes times 1 to 256             all
 *       4   requests are not 8 bytes times 0 to 512         run
 *       5   answers are not as long as the requests         run
 *       6   the surface does not stand                      check, run, list
 *       7   room is shorter than 8 bytes for each entry     list
 *
 * A surface stands when each slot is free or has an id, w and h of at least 1,
 * lies on the surface, has kind 0 or 1 and byte 7 zero; no two used slots have the
 * same id or share a cell; and every weight is as said above. freelist_clear makes
 * one, and freelist_run leaves one.
 *
 * A request that is refused writes no byte of weights or table, so the old module
 * of an exchange stays, and the next request runs. The code in the answer is the
 * first of this list that applies (23 stands behind 16):
 *
 *      11   op is not 1, 2, 3, 4 or 6
 *      12   a byte that must be 0 is not
 *      13   rule over 2                                     place, exchange
 *      14   id 0
 *      15   id is placed already                            place, pin, set
 *      16   id is not placed                                remove, exchange
 *      23   id is that of a hard block                      remove, exchange
 *      17   w or h is 0                                     all but remove
 *      18   x + w > W or y + h > H                          pin, set
 *      19   no free slot                                    place, pin, set
 *      20   no position has all its cells empty (those of   place, exchange
 *           the module to be exchanged are occupied)
 *      21   a cell of the place is occupied                 pin, set
 *
 * (22, a rule's place with an occupied cell, is proved never to be given.)
 */
#ifndef FREELIST_H
#define FREELIST_H

#include <stdint.h>

#ifdef __cplusplus
extern "C" {
#endif

/* The parts of a result. */
static inline unsigned freelist_code(uint64_t result) { return (unsigned)(result & 0xffffu); }
static inline unsigned freelist_first(uint64_t result) { return (unsigned)(result >> 16 & 0xffffu); }
static inline unsigned freelist_second(uint64_t result) { return (unsigned)(result >> 32 & 0xffffu); }

/* Frees all slots, those of hard blocks too, and gives cell (x, y) weight y + 1.
 * No counts. Writes to all of weights and table. */
uint64_t freelist_clear(uint64_t w, uint64_t h,
                        uint8_t *weights, uint64_t weights_len,
                        uint8_t *table, uint64_t table_len);

/* Examines the surface. First count: used slots, of modules and of hard blocks.
 * Writes nothing. */
uint64_t freelist_check(uint64_t w, uint64_t h,
                        const uint8_t *weights, uint64_t weights_len,
                        const uint8_t *table, uint64_t table_len);

/* Runs the requests in turn, each on what the one before left. First count:
 * requests accepted. Writes to weights and table what they leave, to neither where
 * none is accepted, and to all of answers. */
uint64_t freelist_run(uint64_t w, uint64_t h,
                      uint8_t *weights, uint64_t weights_len,
                      uint8_t *table, uint64_t table_len,
                      const uint8_t *requests, uint64_t requests_len,
                      uint8_t *answers, uint64_t answers_len);

/* Lists the maximal empty rectangles: those empty rectangles that no other
 * empty one contains, by bottom row, which is a scanned one (see room), then right
 * column, then left column. First count: entries. Second: corners, those empty
 * cells of scanned rows that stand in the last column or have a right neighbour of
 * smaller weight. Writes the entries from the start of room; the bytes behind them
 * stay. */
uint64_t freelist_list(uint64_t w, uint64_t h,
                       const uint8_t *weights, uint64_t weights_len,
                       const uint8_t *table, uint64_t table_len,
                       uint8_t *room, uint64_t room_len);

#ifdef __cplusplus
}
#endif

#endif
