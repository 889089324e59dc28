// The bits at which a trie parts its keys.
#pragma once
#include "forest.hpp"

// The level of each leaf of class 0. That of a fork is below it, by one more than its bit.
constexpr Word LEVEL_OF_LEAVES = 66;

// Whether a key agrees with that of a fork in all bits above the fork's, the lowest that its key has.
inline bool shares(Word fork, Word key) { return (fork ^ key) <= (fork ^ (fork - 1)); }

// The fork that parts two keys at the highest bit in which they differ.
struct ForkBetween {
    Word level, key;

    ForkBetween(Word low, Word high) {
        const Word bit = 63 - __builtin_clzll(low ^ high);
        level = LEVEL_OF_LEAVES - 1 - bit;
        key = high >> bit << bit;
    }
};
