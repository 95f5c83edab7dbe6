// Tricks with bits: the number of those that are set, a rotation, and a power of two.
#include <stdint.h>

unsigned ones(uint64_t word)
{
    unsigned count = 0;
    for (; word; word &= word - 1)
        count++;
    return count;
}

uint32_t rotated(uint32_t word, unsigned by)
{
    return word << (by & 31) | word >> (-by & 31);
}

uint32_t power_above(uint32_t word)
{
    word |= word >> 1;
    word |= word >> 2;
    word |= word >> 4;
    word |= word >> 8;
    return (word | word >> 16) + 1;
}
