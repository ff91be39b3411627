/* Draws by hashing (the steps of splitmix64). */
#include "chance.h"

uint64_t chance_mix(uint64_t number) {
    number += 0x9E3779B97F4A7C15ULL;
    number = (number ^ (number >> 30)) * 0xBF58476D1CE4E5B9ULL;
    number = (number ^ (number >> 27)) * 0x94D049BB133111EBULL;
    return number ^ (number >> 31);
}

double chance_part(uint64_t mixed) { return (double)(mixed >> 11) / 9007199254740992.0; }

double chance(uint64_t seed, topic about, uint64_t one, uint64_t two, uint64_t three) {
    uint64_t mixed = chance_mix(chance_mix(seed ^ (uint64_t)about) ^ one);
    return chance_part(chance_mix(chance_mix(mixed ^ two) ^ three));
}
