/* Prints names of letters that the kit's hash maps would put side by side: FoldHasher, whose seed is fixed, over the length and
   then each byte, in the low bits that choose among groups of entries. Usage: collide COUNT */

#include <inttypes.h>
#include <stdint.h>
#include <stdio.h>
#include <stdlib.h>

#define MULTIPLIER UINT64_C(0x9e3779b97f4a7c15)
#define SEED UINT64_C(0x243f6a8885a308d3)
/* a table of 200,000 entries has 32,768 groups; a name is taken for one of the first 32 */
#define GROUPS 32768
#define TAKEN 32

static uint64_t folded(uint64_t a, uint64_t b)
{
    unsigned __int128 product = (unsigned __int128)a * b;
    return (uint64_t)product ^ (uint64_t)(product >> 64);
}

static uint64_t after_byte(uint64_t state, uint8_t byte)
{
    return folded(state ^ byte * UINT64_C(0x010101), MULTIPLIER ^ 2);
}

static uint64_t after_length(uint64_t length)
{
    return folded(SEED ^ length, MULTIPLIER ^ 16);
}

int main(int argc, char **argv)
{
    unsigned long left = argc > 1 ? strtoul(argv[1], NULL, 10) : 0;
    char name[11] = "aaaaaaaaaa";
    while (left) {
        uint64_t state = after_length(10);
        for (int i = 0; i < 10; i++)
            state = after_byte(state, (uint8_t)name[i]);
        uint32_t hash = (uint32_t)(state ^ state >> 32);
        if (hash % GROUPS < TAKEN) {
            puts(name);
            left--;
        }
        for (int i = 9; i >= 0 && name[i]++ == 'z'; i--)
            name[i] = 'a';
    }
    return 0;
}
