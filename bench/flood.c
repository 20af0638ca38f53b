// SPDX-License-Identifier: Apache-2.0
/* Prints so many page addresses that the kit's hasher, which has a fixed seed, gives one group (the low 11 bits) and one
 * tag (the top byte), so that a hash table of pages would look at all of them for each. For the log `flood` of hostile_logs.py. */
#include <stdint.h>
#include <stdio.h>
#include <stdlib.h>

static uint32_t hash_of(uint64_t key) {
    unsigned __int128 product = (unsigned __int128)(0x243f6a8885a308d3ull ^ key) * (0x9e3779b97f4a7c15ull ^ 16);
    uint64_t folded = (uint64_t)product ^ (uint64_t)(product >> 64);
    return (uint32_t)folded ^ (uint32_t)(folded >> 32);
}

int main(int count, char **words) {
    long left = count > 1 ? atol(words[1]) : 0;
    for (uint64_t page = 1; page < 1ull << 36 && left > 0; page++) {
        uint32_t hash = hash_of(page << 12);
        if ((hash & 2047) == 7 && hash >> 24 == 0x5a) {
            printf("%lx\n", (unsigned long)(page << 12));
            left--;
        }
    }
    return 0;
}
