/* collide BITS COUNT STATE MULTIPLIER: writes COUNT names of 8 characters, one on a line, whose hashes end with BITS zeros in a table,
   if its hasher has this first state and this multiplier, both hexadecimal: those of a seed of irtext_interner, or of std's FoldHasher.
   For machines that store the lowest byte first. */
#include <stdint.h>
#include <stdio.h>
#include <stdlib.h>

static uint64_t folded_multiply(uint64_t a, uint64_t b)
{
    unsigned __int128 product = (unsigned __int128)a * b;
    return (uint64_t)product ^ (uint64_t)(product >> 64);
}

int main(int count_of_words, char **words)
{
    if (count_of_words != 5)
        return 2;
    const char *letters = "abcdefghijklmnopqrstuvwxyz0123456789ABCDEFGHIJKLMNOPQRSTUVWXYZ_";
    uint64_t mask = (1ull << atoi(words[1])) - 1;
    long count = atol(words[2]);
    uint64_t state = strtoull(words[3], 0, 16), multiplier = strtoull(words[4], 0, 16);
    for (uint64_t i = 0; count > 0; i++) {
        uint64_t rest = i, front = 'x';
        for (int at = 24; at < 64; at += 8, rest /= 63)
            front |= (uint64_t)letters[rest % 63] << at;
        for (int pair = 0; pair < 63 * 63 && count > 0; pair++) {
            uint64_t word = front | (uint64_t)letters[pair % 63] << 8 | (uint64_t)letters[pair / 63] << 16;
            uint64_t hash = folded_multiply(state ^ word, multiplier ^ 16);
            hash = folded_multiply(hash ^ 0xffffff, multiplier ^ 2);
            if (((hash ^ hash >> 32) & mask) == 0) {
                printf("%.8s\n", (const char *)&word);
                count--;
            }
        }
    }
    return 0;
}
