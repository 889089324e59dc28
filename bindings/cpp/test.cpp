// What regnubas.hpp makes of each answer, and four threads over one dictionary. `test` says what was
// tried, and ends with status 0.
#include "regnubas.hpp"

#include <algorithm>
#include <cstdio>
#include <cstdlib>
#include <map>
#include <thread>

#define CHECK(what) \
    do { if (!(what)) { std::fprintf(stderr, "%s:%d: %s\n", __FILE__, __LINE__, #what); std::abort(); } } while (0)

namespace {

using regnubas::again;
using regnubas::pass;
using regnubas::refused;
using regnubas::status;
using regnubas::value;

constexpr regnubas_limits LIMITS = {3000, 3000, 100};

template <typename Call> status why(Call call) {
    try {
        call();
    } catch (const refused &fault) {
        return fault.why();
    }
    std::abort();
}

void each_call_answers(regnubas::shape is) {
    auto passes = pass::make(2, LIMITS, is);
    pass &one = passes[0], &other = passes[1];
    CHECK(!one.insert(5, 50) && one.insert(5, {51, 7}) == value(50));
    CHECK(other.get(5) == value(51, 7) && other.contains(5) && !other.contains(6) && !other.get(6));
    CHECK(other.replace_if(5, 50, 52) == value(51, 7) && one.replace_if(5, {51, 7}, 52) == value(51, 7));
    CHECK(!one.replace_if(6, 0, 1) && one.get(5) == value(52));
    CHECK(!one.insert_new(9, 90) && one.insert_new(9, 91) == value(90));
    CHECK(one.successor(5)->first == 9 && !one.successor(9));
    CHECK(one.predecessor(9)->first == 5 && !one.predecessor(5));
    CHECK((one.range(0, 9) == std::vector<regnubas::pair>{{5, 52}, {9, 90}}) && one.range(0, 9, 1).size() == 1);
    CHECK(one.range(9, 0).empty());
    CHECK(one.erase_if(9, 91) == value(90) && one.erase_if(9, 90) == value(90) && !one.erase_if(9, 90));
    CHECK(!one.insert(9, 90) && one.pop_last()->first == 9 && !one.insert(9, 90));
    CHECK(one.pop_first()->first == 5 && one.erase(9) == value(90) && !one.erase(9) && !one.pop_first() && !one.pop_last());
    CHECK(one.left().nodes < LIMITS.nodes && other.left().scx == LIMITS.scx); // the other has only read
}

void refusals_are_told() {
    auto passes = pass::make(2, {3, 1, 1});
    CHECK(why([] { pass::make(0, LIMITS); }) == status::limits && pass::try_make(33, LIMITS).why() == status::limits);
    CHECK(!passes[0].insert(1, 1) && passes[0].try_insert(2, 2).why() == status::full);
    CHECK(why([&] { passes[0].insert(2, 2); }) == status::full);
    CHECK(passes[0].try_close().why() == status::shared);
    pass moved = std::move(passes[1]);
    CHECK(why([&] { passes[1].get(1); }) == status::no_pass && moved.get(1) == value(1));
    moved = std::move(passes[0]); // the one that it was has left
    CHECK((moved.close() == std::vector<regnubas::pair>{{1, 1}}) && moved.try_close().why() == status::no_pass);
    CHECK(moved.left().nodes == 0);
}

void pairs_are_gone_through() {
    auto passes = pass::make(1, LIMITS);
    std::map<regnubas::key, value> kept;
    for (regnubas::key k = 0; k < 500; k += 1 + k % 7) {
        passes[0].insert(~k, k);
        kept[~k] = k;
    }
    for (auto [low, high] : {std::pair<regnubas::key, regnubas::key>{0, ~0ull}, {~400ull, ~0ull}, {~300ull, ~100ull}, {5, 4}, {0, 9}}) {
        std::map<regnubas::key, value> seen, wanted;
        for (const auto &[key, found] : passes[0].items(low, high)) CHECK(seen.emplace(key, found).second);
        for (const auto &[key, found] : kept) if (low <= key && key <= high) wanted.emplace(key, found);
        CHECK(seen == wanted);
        auto items = passes[0].items(low, high);
        CHECK(std::equal(items.begin(), items.end(), wanted.begin(), wanted.end(), [](const auto &one, const auto &other) {
            return one.first == other.first && one.second == other.second;
        }));
    }
}

void a_full_chunk_up_to_the_last_key() {
    auto passes = pass::make(1, LIMITS);
    for (regnubas::key k = 0; k < 64; k++) passes[0].insert(~k, k);
    auto items = passes[0].items();
    CHECK(std::distance(items.begin(), items.end()) == 64);
}

void limits_are_reckoned() {
    struct { std::uint32_t changes, new_keys, nodes, scx; } rows[] = {
        {0, 0, 0, 0}, {100, 10, 240, 200}, {20000, 10, 32768, 32768}, {32768, 0, 32768, 32768}, {~0u, ~0u, ~0u, ~0u},
    };
    for (auto row : rows) {
        const regnubas_limits limits = regnubas::limits_for(row.changes, row.new_keys);
        CHECK(limits.nodes == row.nodes && limits.scx == row.scx);
    }
    CHECK(pass::try_make(1, regnubas::limits_for(32769, 0)).why() == status::limits);
}

// A key far from all others takes two nodes in a trie, and one in a tree.
void a_far_key(regnubas::shape is, std::uint32_t nodes) {
    auto passes = pass::make(1, {20, 20, 1}, is);
    for (regnubas::key k = 1; k <= 5; k++) passes[0].insert(k, k);
    const std::uint32_t before = passes[0].left().nodes;
    passes[0].insert(1ull << 63, 6);
    CHECK(before - passes[0].left().nodes == nodes);
}

void threads_share_it(regnubas::shape is) {
    constexpr std::uint64_t THREADS = 4, KEYS = 700;
    auto passes = pass::make(THREADS, LIMITS, is);
    std::vector<std::thread> threads;
    for (std::uint64_t t = 0; t < THREADS; t++)
        threads.emplace_back([&own = passes[t], t] {
            for (std::uint64_t i = 0; i < KEYS; i++) {
                CHECK(!*again([&] { return own.try_insert((i * 7919) % KEYS * THREADS + t, {i, t}); }));
                if (i % 100 == 0) for (const auto &[key, found] : own.items()) CHECK(key % THREADS == found.high);
            }
        });
    for (auto &thread : threads) thread.join();
    for (std::uint64_t t = 1; t < THREADS; t++) passes[t].leave();
    CHECK(passes[0].close().size() == THREADS * KEYS);
}

// Rising pairs, with both words of their values.
std::vector<regnubas::pair> rising(std::uint64_t count) {
    std::vector<regnubas::pair> pairs;
    for (regnubas::key k = 0; k < count; k++) pairs.push_back({3 * k, {k, ~k}});
    return pairs;
}

void it_begins_with_pairs(regnubas::shape is) {
    for (std::uint64_t count : {0, 1, 4, 5, 64, 1000}) {
        const auto pairs = rising(count);
        auto passes = pass::of_pairs(pairs.begin(), pairs.end(), 2, LIMITS, is);
        CHECK(passes[0].left().nodes == LIMITS.nodes && passes[1].left().scx == LIMITS.scx);
        for (const auto &[key, wanted] : pairs) CHECK(passes[1].get(key) == wanted && !passes[0].contains(key + 1));
        CHECK(!passes[0].insert(1, 1));
        passes[1].leave();
        const auto closed = passes[0].close(); // there is room for more pairs than the passes have nodes
        CHECK(closed.size() == count + 1 && closed[count == 0 ? 0 : 1] == regnubas::pair(1, 1));
    }
    const std::map<regnubas::key, value> map = {{5, 50}, {7, {70, 1}}};
    auto pass = std::move(pass::of_pairs(map.begin(), map.end(), 1, LIMITS, is)[0]);
    CHECK((pass.close() == std::vector<regnubas::pair>{{5, 50}, {7, {70, 1}}}));
}

void pairs_are_refused() {
    const std::vector<regnubas::pair> twice = {{1, 1}, {2, 2}, {2, 3}}, falls = {{2, 2}, {1, 1}}, few = {{1, 1}};
    CHECK(pass::try_of_pairs(twice.begin(), twice.end(), 1, LIMITS).why() == status::order);
    CHECK(why([&] { pass::of_pairs(falls.begin(), falls.end(), 1, LIMITS, regnubas::shape::trie); }) == status::order);
    CHECK(pass::try_of_pairs(few.begin(), few.end(), 33, LIMITS).why() == status::limits);
    CHECK(pass::try_of_pairs(few.begin(), few.end(), 2, {32769, 1, 1}).why() == status::limits);
    CHECK(pass::try_of_pairs(few.begin(), few.end(), 32, {32768, 1, 1}).why() == status::too_many);
}

void it_is_renewed(regnubas::shape is) {
    constexpr std::uint64_t THREADS = 4, KEYS = 60, TIMES = 10;
    std::vector<regnubas::pair> left;
    auto passes = pass::make(THREADS, LIMITS, is);
    for (std::uint64_t time = 0; time < TIMES; time++) {
        std::vector<std::thread> threads;
        for (std::uint64_t t = 0; t < THREADS; t++)
            threads.emplace_back([&own = passes[t], t, time] {
                for (std::uint64_t i = 0; i < KEYS; i++) {
                    const regnubas::key key = (time * KEYS + i) * THREADS + t;
                    CHECK(!*again([&] { return own.try_insert(key, {key, time}); }));
                    if (i % 2 == 1) CHECK(*again([&] { return own.try_erase(key); }) == value(key, time));
                }
            });
        for (auto &thread : threads) thread.join();
        CHECK(passes[0].try_renew(THREADS, LIMITS, left).why() == status::shared);
        for (std::uint64_t t = 1; t < THREADS; t++) passes[t].leave();
        passes = passes[0].renew(THREADS, LIMITS, left);
        CHECK(left.size() == (time + 1) * KEYS / 2 * THREADS);
        for (const auto &[key, wanted] : left) CHECK(key / THREADS % 2 == 0 && passes[0].get(key) == wanted && wanted == value(key, key / THREADS / KEYS));
    }
    // of the shape that it was: a key far from all others takes two nodes in a trie, beside a full leaf three in a tree
    const std::uint32_t before = passes[0].left().nodes;
    passes[0].insert(1ull << 63, 6);
    CHECK(before - passes[0].left().nodes == (is == regnubas::shape::trie ? 2 : 3));
    for (std::uint64_t t = 1; t < THREADS; t++) passes[t].leave();
    CHECK(why([&] { passes[0].renew(33, LIMITS, left); }) == status::limits && left.size() == TIMES * KEYS / 2 * THREADS + 1);
    CHECK(passes[0].try_renew(1, LIMITS, left).why() == status::no_pass);
}

// Far more changes than a share has room for: each pass rests, the last is away meanwhile.
void one_that_lasts(regnubas::shape is) {
    constexpr std::uint64_t THREADS = 3, CHANGES = 3000;
    auto passes = pass::make_lasting(THREADS + 1, {64, 64, 1}, is);
    pass &away = passes[THREADS];
    CHECK(!away.back() && away.away() && !away.away() && why([&] { away.get(1); }) == status::no_pass);
    std::vector<std::thread> threads;
    for (std::uint64_t t = 0; t < THREADS; t++)
        threads.emplace_back([&own = passes[t], t] {
            for (std::uint64_t i = 0; i < CHANGES; i++) {
                while (!own.try_insert(t, {i, t})) own.rest();
                own.rest();
            }
            own.leave();
        });
    for (auto &thread : threads) thread.join();
    CHECK(away.back() && away.get(1) == value(CHANGES - 1, 1) && !away.rest());
    CHECK(away.close().size() == THREADS);
    auto other = pass::make(1, LIMITS, is);
    CHECK(!other[0].away() && !other[0].back() && !other[0].rest() && !other[0].insert(5, 50));
}

// A leaf of four pairs is one node, and what it replaced comes back.
void more_pairs_than_nodes() {
    auto passes = pass::make_lasting(1, {9, 9, 1}, regnubas::shape::trie);
    for (regnubas::key k = 0; k < 12; k++) {
        CHECK(!passes[0].insert(k, k));
        for (int i = 0; i < 8; i++) passes[0].rest();
    }
    CHECK(passes[0].close().size() == 12);
}

} // namespace

int main() {
    each_call_answers(regnubas::shape::tree);
    each_call_answers(regnubas::shape::trie);
    refusals_are_told();
    pairs_are_gone_through();
    a_full_chunk_up_to_the_last_key();
    limits_are_reckoned();
    a_far_key(regnubas::shape::tree, 1);
    a_far_key(regnubas::shape::trie, 2);
    threads_share_it(regnubas::shape::tree);
    threads_share_it(regnubas::shape::trie);
    pairs_are_refused();
    for (regnubas::shape is : {regnubas::shape::tree, regnubas::shape::trie}) {
        it_begins_with_pairs(is);
        it_is_renewed(is);
        one_that_lasts(is);
    }
    more_pairs_than_nodes();
    std::puts("each call, each refusal, ranges, limits, four threads, pairs to begin with, ten renewals, one that lasts");
}
