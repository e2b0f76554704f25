/* The program `freelist` over the brute force: standard input to the end, in
 * pieces, of any length; a short read is no end of input. */
#include "brute_program.h"

int main(void)
{
    static uint8_t piece[4096];
    static struct program p;
    size_t count;
    program_start(&p);
    while ((count = fread(piece, 1, sizeof piece, stdin)) > 0)
        program_feed(&p, piece, count, stdout);
    if (ferror(stdin))
        return 1;
    program_end(&p, stdout);
    return fflush(stdout) == 0 && !ferror(stdout) ? 0 : 1;
}
