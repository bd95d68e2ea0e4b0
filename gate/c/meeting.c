// Prints so many addresses that meet in a table whose keys are those that anyone can know (`Keys::FIXED` of sr_slots): a look-up of one
// goes past all that were put in before it. The map behind a table takes 32 bits of an address's number: the lowest say in which group
// of places it is sought, of which a table of 1024 sources has 256 at the most, and the highest eight tell it from others there.
#include <stdint.h>
#include <stdio.h>
#include <stdlib.h>

#define WORDS(high, low) (((unsigned __int128)(high) << 64) | (low))
#define FACTOR WORDS(0x9e3779b97f4a7c15u, 0xf39cc0605cedc835u)
#define ADDEND WORDS(0x243f6a8885a308d3u, 0x13198a2e03707344u)

// What the map takes of an address, which is read as a number.
static uint32_t number_of(uint64_t address) {
    uint64_t upper = (uint64_t)((FACTOR * address + ADDEND) >> 64);
    uint64_t spread = (upper ^ (upper >> 32)) * 0x9e3779b97f4a7c15u;
    return (uint32_t)(spread ^ (spread >> 32));
}

int main(int count, char **words) {
    int left = count == 2 ? atoi(words[1]) : 0;
    for (uint64_t address = 0x020000000000; left > 0; address++)
        if ((number_of(address) & 0xff0000ff) == 0x11000022) {
            printf("%012llx\n", (unsigned long long)address);
            left--;
        }
    return 0;
}
