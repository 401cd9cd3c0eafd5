// codes START FACTOR BITS COUNT PLACES SKIP: prints COUNT triples of places below PLACES whose codes share the low BITS bits of their hash
// (all 0) under the key of START and FACTOR; the first place of each is at least SKIP. A code is four words of four bytes, the last of them 0.
#include <stdint.h>
#include <stdio.h>
#include <stdlib.h>

static uint64_t folded(uint64_t a, uint64_t b) {
    unsigned __int128 product = (unsigned __int128)a * b;
    return (uint64_t)(product >> 64) ^ (uint64_t)product;
}

int main(int words, char **word) {
    if (words != 7) return 2;
    uint64_t start = strtoull(word[1], 0, 10) ^ 16, factor = strtoull(word[2], 0, 10), mask = ((uint64_t)1 << atoi(word[3])) - 1;
    uint64_t count = strtoull(word[4], 0, 10), places = strtoull(word[5], 0, 10), found = 0;
    for (uint64_t a = strtoull(word[6], 0, 10); a < places; a++)
        for (uint64_t b = 0; b < places; b++) {
            uint64_t first = folded(start ^ (a | b << 32), factor);
            for (uint64_t c = 0; c < places; c++)
                if ((folded(folded(first ^ c, factor) ^ c, factor) & mask) == 0) {
                    printf("%llu %llu %llu\n", (unsigned long long)a, (unsigned long long)b, (unsigned long long)c);
                    if (++found == count) return 0;
                }
        }
    return 1;
}
