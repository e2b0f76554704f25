/* The header alone, in C and in C++: a result's parts are sixteen bits each,
 * whatever stands beside them, above the second count too. Exit status 0 when
 * all are right. */
#include "freelist.h"

static int differs(unsigned code, unsigned first, unsigned second, unsigned above)
{
    uint64_t r = code | (uint64_t)first << 16 | (uint64_t)second << 32 | (uint64_t)above << 48;
    return freelist_code(r) != code || freelist_first(r) != first || freelist_second(r) != second;
}

int main(void)
{
    static const unsigned parts[] = { 0, 1, 0x8000, 0xffff };
    int wrong = 0;
    for (int i = 0; i < 4 * 4 * 4 * 4; i++)
        wrong |= differs(parts[i % 4], parts[i / 4 % 4], parts[i / 16 % 4], parts[i / 64]);
    return wrong;
}
