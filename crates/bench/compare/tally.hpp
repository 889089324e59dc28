// How rounds ended.
#pragma once
#include "forest.hpp"

struct Tally {
    Word done = 0, lost = 0, fail = 0;
    // A number made of all that was told: one that is told otherwise changes it.
    Word checksum = 0;

    void tell(Word reply) { checksum = checksum * 31 + reply; }

    void add(const Tally& other) {
        done += other.done;
        lost += other.lost;
        fail += other.fail;
        checksum += other.checksum;
    }
};
