// Each allocation of a story is refused in turn, alone and then with all after it: the call answers
// NO_MEMORY, or does without, as a range may that asks for room beforehand; nothing leaks, and the
// dictionary is as it was.
#include "refusing_heap.hpp"
#include "regnubas.h"

#include <cstdio>
#include <cstdlib>
#include <initializer_list>

#define CHECK(what) \
    do { if (!(what)) { std::fprintf(stderr, "%s:%d: %s (refusing %ld)\n", __FILE__, __LINE__, #what, refuse); std::abort(); } } while (0)

// A pass rests, goes away and comes back, for which no memory is asked.
static void rest(regnubas_pass *pass) {
    const long before = asked;
    uint32_t other = 0;
    CHECK(regnubas_rest(pass, &other) == REGNUBAS_NONE); // its whole share is left
    CHECK(regnubas_away(pass) == REGNUBAS_NONE && regnubas_back(pass) == REGNUBAS_NONE && asked == before);
}

// Whether all was done. All passes end it, or the last of them.
static bool story(bool by_all, bool lasting) {
    asked = 0;
    regnubas_pass passes[3] = {};
    uint32_t made = (lasting ? regnubas_make_lasting : regnubas_make)({300, 100, 2}, passes, 3);
    if (made != REGNUBAS_NONE) {
        CHECK(made == REGNUBAS_NO_MEMORY && blocks == 0);
        for (regnubas_pass &pass : passes) CHECK(pass.at == nullptr);
        return false;
    }
    bool all = true;
    if (lasting) rest(&passes[1]);
    for (uint64_t k = 0; k < 90; k++) CHECK(regnubas_insert(&passes[0], 2 * k, {k, ~k}).status == REGNUBAS_NONE);
    CHECK(regnubas_insert(&passes[1], 1, {4, 4}).status == REGNUBAS_NONE);
    CHECK(regnubas_replace_if(&passes[1], 1, {4, 4}, {5, 6}).value.high == 4);
    CHECK(regnubas_insert_new(&passes[1], 1, {7, 7}).value.high == 6);
    CHECK(regnubas_delete_if(&passes[1], 1, {5, 6}).value.high == 6);
    for (uint64_t k = 0; k < 90; k += 9) CHECK(regnubas_get(&passes[1], 2 * k).value.high == ~k);
    for (uint64_t k = 0; k < 90; k += 9) {
        regnubas_pair pair = {7, {7, 7}};
        uint32_t status = regnubas_successor(&passes[1], 2 * k, &pair);
        if (status == REGNUBAS_NO_MEMORY) {
            CHECK(pair.key == 7 && pair.value.low == 7 && pair.value.high == 7);
            all = false;
        } else
            CHECK(status == REGNUBAS_SOME ? pair.key == 2 * k + 2 : k == 89);
        pair = {7, {7, 7}};
        status = regnubas_predecessor(&passes[1], 2 * k, &pair);
        if (status == REGNUBAS_NO_MEMORY) {
            CHECK(pair.key == 7 && pair.value.low == 7 && pair.value.high == 7);
            all = false;
        } else
            CHECK(status == REGNUBAS_SOME ? pair.key == 2 * k - 2 : k == 0);
        regnubas_pair pairs[64] = {};
        regnubas_count count = regnubas_range(&passes[2], 2 * k, UINT64_MAX, pairs, 64);
        if (count.status == REGNUBAS_NO_MEMORY)
            all = false;
        else
            CHECK(count.status == REGNUBAS_SOME && count.pairs == (90 - k < 64 ? 90 - k : 64) && pairs[0].key == 2 * k);
    }
    if (!by_all) {
        regnubas_leave(&passes[0]);
        regnubas_leave(&passes[1]);
    }
    regnubas_pair pairs[100] = {};
    regnubas_count closed = by_all ? regnubas_end(passes, 3, pairs, 100) : regnubas_close(&passes[2], pairs, 100);
    if (closed.status == REGNUBAS_NO_MEMORY)
        all = false;
    else
        CHECK(closed.status == REGNUBAS_SOME && closed.pairs == 90 && pairs[89].value.low == 89);
    for (regnubas_pass &pass : passes) CHECK(pass.at == nullptr);
    CHECK(blocks == 0);
    return all;
}

static bool are_nine(const regnubas_pair *pairs) {
    for (uint64_t k = 0; k < 9; k++)
        if (pairs[k].key != 2 * k || pairs[k].value.low != k || pairs[k].value.high != ~k) return false;
    return true;
}

// The same of one that begins with pairs, and is renewed: where that is refused once they are read,
// they are in the room.
static bool renewed(bool trie) {
    asked = 0;
    regnubas_pass passes[2] = {};
    regnubas_pair pairs[9] = {}, room[9] = {};
    for (uint64_t k = 0; k < 9; k++) pairs[k] = {2 * k, {k, ~k}};
    uint32_t made = (trie ? regnubas_make_trie_of_pairs : regnubas_make_of_pairs)({30, 10, 2}, pairs, 9, passes, 2);
    if (made != REGNUBAS_NONE) {
        CHECK(made == REGNUBAS_NO_MEMORY && blocks == 0 && !passes[0].at && !passes[1].at);
        return false;
    }
    regnubas_count told = regnubas_renew({10, 5, 2}, passes, 2, room, 9);
    if (told.status == REGNUBAS_NO_MEMORY) {
        CHECK(!passes[0].at && !passes[1].at && blocks == 0);
        CHECK(told.pairs == 0 || (told.pairs == 9 && are_nine(room)));
        return false;
    }
    CHECK(told.status == REGNUBAS_SOME && told.pairs == 9 && are_nine(room));
    for (uint64_t k = 0; k < 9; k++) CHECK(regnubas_get(&passes[k % 2], 2 * k).value.high == ~k);
    regnubas_leave(&passes[0]);
    regnubas_leave(&passes[1]);
    CHECK(blocks == 0);
    return true;
}

template <typename Story> static void refuse_each(Story story) {
    refuse = 0;
    onwards = false;
    CHECK(story());
    long count = asked, without = 0;
    for (refuse = 1; refuse <= count; refuse++) without += story();
    onwards = true;
    for (refuse = 1; refuse <= count; refuse++) CHECK(!story());
    std::printf("ok: %ld allocations, each refused in turn; %ld of them could be done without\n", count, without);
}

int main() {
    for (bool once : {false, true}) {
        refuse_each([once] { return story(once, false); });
        refuse_each([once] { return story(once, true); });
        refuse_each([once] { return renewed(once); });
    }
    return 0;
}
