/* Prints numbers of instances that all begin at four neighbouring groups of a table with 32,768 groups, as indexmap would have it for that many
 * entries: what its fixed seed lets a stranger's file do. Usage: colliding COUNT */
#include <stdint.h>
#include <stdio.h>
#include <stdlib.h>

static const uint64_t SEED = 0x243f6a8885a308d3, MULTIPLIER = 0x9e3779b97f4a7c15;

/* The hash of a 32-bit key: four bytes twice, multiplied to 128 bits, halves joined, and joined again to 32 bits. */
static uint32_t hash(uint32_t number) {
    uint64_t key = SEED ^ (number | (uint64_t)number << 32);
    unsigned __int128 product = (unsigned __int128)key * (MULTIPLIER ^ 8);
    uint64_t folded = (uint64_t)product ^ (uint64_t)(product >> 64);
    return (uint32_t)(folded ^ folded >> 32);
}

int main(int count, char **words) {
    long left = count > 1 ? atol(words[1]) : 0;
    for (uint32_t number = 3; left > 0 && number <= INT32_MAX; number++)
        if ((hash(number) & 32767) < 4) {
            printf("%u\n", number);
            left--;
        }
    return left > 0;
}
