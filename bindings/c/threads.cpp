// Four threads on one dictionary, through the header: each sets keys of its own, reads another's and
// takes a third of its own away, and all count in one key; each key that all four set if it is new
// has one of them as its setter; two empty a queue from its front and two from its back. Before that
// each status is met, and dictionaries begin with pairs and are renewed, or last. `threads N` does so N times. Values have bits in both their words.
#include "regnubas.h"

#include <algorithm>
#include <cstdio>
#include <cstdlib>
#include <thread>
#include <vector>

#define CHECK(what) \
    do { if (!(what)) { std::fprintf(stderr, "%s:%d: %s\n", __FILE__, __LINE__, #what); std::abort(); } } while (0)

namespace {

constexpr uint32_t THREADS = 4;
constexpr uint64_t KEYS = 3000, COUNTS = 500, COUNTER = UINT64_MAX;
constexpr regnubas_value ZERO = {0, 0}, START = {UINT64_MAX - 99, 3}; // a count carries into the high word

uint64_t key_of(uint64_t thread, uint64_t i) { return i * THREADS + thread; }

// The value that a key is given here.
regnubas_value value_of(uint64_t key) { return {key + 7, ~key}; }

regnubas_value plus(regnubas_value value, uint64_t more) {
    uint64_t low = value.low + more;
    return {low, value.high + (low < more)};
}

bool same(regnubas_value one, regnubas_value other) { return one.low == other.low && one.high == other.high; }

uint32_t status_of(uint32_t status) { return status; }
uint32_t status_of(regnubas_answer answer) { return answer.status; }
uint32_t status_of(regnubas_count count) { return count.status; }

template <typename Call> auto again(Call call) {
    for (;;) {
        auto answer = call();
        if (status_of(answer) != REGNUBAS_CONTENDED) return answer;
    }
}

bool is(regnubas_answer answer, uint32_t status, regnubas_value value) { return answer.status == status && same(answer.value, value); }
bool is(regnubas_count count, uint32_t status, uint64_t pairs) { return count.status == status && count.pairs == pairs; }
bool has(regnubas_pair pair, uint64_t key, regnubas_value value) { return pair.key == key && same(pair.value, value); }

void set_keys(regnubas_pass *pass, uint64_t number) {
    for (uint64_t i = 0; i < KEYS; i++) {
        uint64_t key = key_of(number, i), other = key_of((number + 1) % THREADS, i);
        CHECK(is(again([&] { return regnubas_insert(pass, key, value_of(key)); }), REGNUBAS_NONE, ZERO));
        CHECK(is(regnubas_get(pass, key), REGNUBAS_SOME, value_of(key)));
        regnubas_answer answer = regnubas_get(pass, other);
        CHECK(is(answer, REGNUBAS_NONE, ZERO) || is(answer, REGNUBAS_SOME, value_of(other)));
    }
}

void take_keys(regnubas_pass *pass, uint64_t number) {
    for (uint64_t i = 0; i < KEYS; i += 3) {
        uint64_t key = key_of(number, i);
        CHECK(is(again([&] { return regnubas_delete(pass, key); }), REGNUBAS_SOME, value_of(key)));
        CHECK(is(regnubas_get(pass, key), REGNUBAS_NONE, ZERO));
        regnubas_pair pair = {}, pairs[16] = {};
        uint32_t status = again([&] { return regnubas_successor(pass, key, &pair); });
        CHECK(status == REGNUBAS_SOME && pair.key > key && (pair.key == COUNTER || same(pair.value, value_of(pair.key))));
        status = again([&] { return regnubas_predecessor(pass, key, &pair); });
        CHECK(status == REGNUBAS_NONE || (status == REGNUBAS_SOME && pair.key < key && same(pair.value, value_of(pair.key))));
        regnubas_count count = again([&] { return regnubas_range(pass, key, COUNTER - 1, pairs, 16); });
        CHECK(count.status == REGNUBAS_SOME && count.pairs <= 16);
        for (uint64_t j = 0; j < count.pairs; j++)
            CHECK(pairs[j].key > key && same(pairs[j].value, value_of(pairs[j].key)) && (j == 0 || pairs[j - 1].key < pairs[j].key));
    }
}

void count_up(regnubas_pass *pass) {
    regnubas_value seen = START;
    for (uint64_t n = 0; n < COUNTS;) {
        regnubas_answer answer = again([&] { return regnubas_replace_if(pass, COUNTER, seen, plus(seen, 1)); });
        CHECK(answer.status == REGNUBAS_SOME);
        bool mine = same(answer.value, seen);
        n += mine;
        seen = mine ? plus(seen, 1) : answer.value;
    }
}

void pop_all(regnubas_pass *pass, bool last, std::vector<uint64_t> &taken) {
    for (;;) {
        regnubas_pair pair = {};
        uint32_t status = again([&] { return last ? regnubas_pop_last(pass, &pair) : regnubas_pop_first(pass, &pair); });
        if (status == REGNUBAS_NONE) return;
        CHECK(status == REGNUBAS_SOME && has(pair, pair.key, value_of(pair.key)));
        CHECK(taken.empty() || (last ? pair.key < taken.back() : taken.back() < pair.key));
        taken.push_back(pair.key);
    }
}

// How many of the keys this thread has set first.
uint64_t win_keys(regnubas_pass *pass, uint64_t number) {
    uint64_t won = 0;
    for (uint64_t key = 0; key < KEYS; key++) {
        regnubas_answer answer = again([&] { return regnubas_insert_new(pass, key, {number, ~key}); });
        CHECK(answer.status == REGNUBAS_NONE || (answer.status == REGNUBAS_SOME && answer.value.high == ~key));
        won += answer.status == REGNUBAS_NONE;
    }
    return won;
}

// Each thread works with a pass of its own.
template <typename Work> void in_threads(regnubas_pass *passes, Work work) {
    std::vector<std::thread> threads;
    for (uint64_t t = 0; t < THREADS; t++) threads.emplace_back([=] { work(&passes[t], t); });
    for (std::thread &thread : threads) thread.join();
}

// All passes leave but the first, which closes.
std::vector<regnubas_pair> close_all(regnubas_pass *passes) {
    std::vector<regnubas_pair> pairs(THREADS * KEYS + 1);
    for (uint64_t t = 1; t < THREADS; t++) {
        CHECK(is(regnubas_close(&passes[0], pairs.data(), pairs.size()), REGNUBAS_SHARED, 0));
        regnubas_leave(&passes[t]);
        CHECK(is(regnubas_get(&passes[t], 1), REGNUBAS_NO_PASS, ZERO));
        regnubas_leave(&passes[t]); // twice: nothing
    }
    regnubas_count count = regnubas_close(&passes[0], pairs.data(), pairs.size());
    CHECK(count.status == REGNUBAS_SOME && count.pairs <= pairs.size());
    pairs.resize(count.pairs);
    return pairs;
}

// All passes end it at once.
std::vector<regnubas_pair> end_all(regnubas_pass *passes) {
    std::vector<regnubas_pair> pairs(THREADS * KEYS + 1);
    CHECK(is(regnubas_end(passes, THREADS - 1, pairs.data(), pairs.size()), REGNUBAS_SHARED, 0));
    std::swap(passes[0], passes[THREADS - 1]); // in any order
    regnubas_count count = regnubas_end(passes, THREADS, pairs.data(), pairs.size());
    CHECK(count.status == REGNUBAS_SOME && count.pairs <= pairs.size());
    for (uint64_t t = 0; t < THREADS; t++) CHECK(passes[t].at == nullptr);
    CHECK(is(regnubas_end(passes, THREADS, pairs.data(), pairs.size()), REGNUBAS_NO_PASS, 0));
    pairs.resize(count.pairs);
    return pairs;
}

template <typename Make, typename End> void keys_and_counter(Make make, End end) {
    regnubas_pass passes[THREADS] = {};
    CHECK(make(regnubas_limits{32768, 32768, 1}, passes, THREADS) == REGNUBAS_NONE);
    CHECK(is(regnubas_insert(&passes[0], COUNTER, START), REGNUBAS_NONE, ZERO));
    in_threads(passes, [](regnubas_pass *pass, uint64_t number) {
        set_keys(pass, number);
        take_keys(pass, number);
        count_up(pass);
    });
    std::vector<regnubas_pair> pairs = end(passes);
    size_t n = 0;
    for (uint64_t i = 0; i < KEYS; i++)
        for (uint64_t t = 0; t < THREADS && i % 3 != 0; t++, n++)
            CHECK(has(pairs[n], key_of(t, i), value_of(key_of(t, i))));
    CHECK(pairs.size() == n + 1 && has(pairs[n], COUNTER, plus(START, THREADS * COUNTS)));
}

template <typename Make> void queue(Make make) {
    regnubas_pass passes[THREADS] = {};
    std::vector<uint64_t> taken[THREADS], all;
    CHECK(make(regnubas_limits{32768, 32768, 1}, passes, THREADS) == REGNUBAS_NONE);
    for (uint64_t i = 0; i < KEYS; i++) // in an order that makes a tree and not a list
        CHECK(is(regnubas_insert(&passes[i % THREADS], i * 1009 % KEYS, value_of(i * 1009 % KEYS)), REGNUBAS_NONE, ZERO));
    in_threads(passes, [&taken](regnubas_pass *pass, uint64_t number) { pop_all(pass, number % 2, taken[number]); });
    CHECK(close_all(passes).empty());
    for (std::vector<uint64_t> &keys : taken) all.insert(all.end(), keys.begin(), keys.end());
    std::sort(all.begin(), all.end());
    CHECK(all.size() == KEYS);
    for (uint64_t i = 0; i < KEYS; i++) CHECK(all[i] == i);
}

void one_setter_a_key() {
    regnubas_pass passes[THREADS] = {};
    uint64_t won[THREADS] = {}, held[THREADS] = {};
    CHECK(regnubas_make({32768, 32768, 1}, passes, THREADS) == REGNUBAS_NONE);
    in_threads(passes, [&won](regnubas_pass *pass, uint64_t number) { won[number] = win_keys(pass, number); });
    for (uint64_t key = 0; key < KEYS; key++) held[regnubas_get(&passes[0], key).value.low]++;
    for (uint64_t t = 0; t < THREADS; t++) CHECK(won[t] == held[t]);
    CHECK(close_all(passes).size() == KEYS);
}

void refusals() {
    regnubas_pass none = {};
    regnubas_pair pair = {1, {2, 3}};
    CHECK(is(regnubas_get(&none, 1), REGNUBAS_NO_PASS, ZERO));
    CHECK(is(regnubas_insert(&none, 1, {1, 1}), REGNUBAS_NO_PASS, ZERO));
    CHECK(is(regnubas_insert_new(&none, 1, {1, 1}), REGNUBAS_NO_PASS, ZERO));
    CHECK(is(regnubas_delete(&none, 1), REGNUBAS_NO_PASS, ZERO));
    CHECK(is(regnubas_delete_if(&none, 1, {1, 1}), REGNUBAS_NO_PASS, ZERO));
    CHECK(is(regnubas_replace_if(&none, 1, {1, 1}, {1, 1}), REGNUBAS_NO_PASS, ZERO));
    CHECK(regnubas_pop_first(&none, &pair) == REGNUBAS_NO_PASS);
    CHECK(regnubas_pop_last(&none, &pair) == REGNUBAS_NO_PASS);
    CHECK(regnubas_successor(&none, 1, &pair) == REGNUBAS_NO_PASS);
    CHECK(regnubas_predecessor(&none, 1, &pair) == REGNUBAS_NO_PASS);
    CHECK(is(regnubas_range(&none, 1, 1, &pair, 1), REGNUBAS_NO_PASS, 0));
    CHECK(is(regnubas_close(&none, &pair, 1), REGNUBAS_NO_PASS, 0));
    CHECK(is(regnubas_end(&none, 1, &pair, 1), REGNUBAS_NO_PASS, 0));
    CHECK(is(regnubas_end(&none, 0, &pair, 1), REGNUBAS_NO_PASS, 0));
    regnubas_leave(&none);
    regnubas_share share = regnubas_left(&none);
    CHECK(share.nodes == 0 && share.scx == 0 && has(pair, 1, {2, 3}));
    std::vector<regnubas_pass> many(33);
    CHECK(regnubas_make({1, 1, 1}, many.data(), 33) == REGNUBAS_LIMITS);
    CHECK(regnubas_make({1, 1, 1}, many.data(), 0) == REGNUBAS_LIMITS);
    CHECK(regnubas_make({32769, 1, 1}, many.data(), 2) == REGNUBAS_LIMITS);
    CHECK(regnubas_make({1, 32769, 1}, many.data(), 2) == REGNUBAS_LIMITS);
    CHECK(regnubas_make({1, 1, 0}, many.data(), 2) == REGNUBAS_LIMITS);
    CHECK(regnubas_make({1, 1, 1001}, many.data(), 2) == REGNUBAS_LIMITS);
    for (regnubas_pass &pass : many) CHECK(pass.at == nullptr);
}

void shares() {
    regnubas_pass passes[2] = {};
    regnubas_pair pair = {};
    CHECK(regnubas_make({6, 2, 1}, passes, 2) == REGNUBAS_NONE);
    CHECK(is(regnubas_insert(&passes[0], UINT64_MAX, {5, UINT64_MAX}), REGNUBAS_NONE, ZERO));
    CHECK(is(regnubas_insert(&passes[0], 0, {6, 0}), REGNUBAS_NONE, ZERO));
    CHECK(is(regnubas_insert(&passes[0], 3, {6, 0}), REGNUBAS_FULL, ZERO));
    CHECK(is(regnubas_replace_if(&passes[0], 0, {6, 0}, {7, 0}), REGNUBAS_FULL, ZERO));
    CHECK(is(regnubas_replace_if(&passes[0], 0, {6, 1}, {7, 0}), REGNUBAS_SOME, {6, 0})); // nothing to change
    CHECK(is(regnubas_replace_if(&passes[0], 0, {0, 6}, {7, 0}), REGNUBAS_SOME, {6, 0}));
    CHECK(is(regnubas_replace_if(&passes[0], 1, {5, 0}, {7, 0}), REGNUBAS_NONE, ZERO));
    CHECK(is(regnubas_insert_new(&passes[0], 3, {6, 0}), REGNUBAS_FULL, ZERO));
    CHECK(is(regnubas_insert_new(&passes[0], 0, {7, 0}), REGNUBAS_SOME, {6, 0})); // nothing to change
    CHECK(is(regnubas_delete_if(&passes[0], 0, {6, 0}), REGNUBAS_FULL, ZERO));
    CHECK(is(regnubas_delete_if(&passes[0], 0, {6, 1}), REGNUBAS_SOME, {6, 0})); // nothing to change
    CHECK(is(regnubas_delete_if(&passes[0], 1, {6, 0}), REGNUBAS_NONE, ZERO));
    CHECK(regnubas_pop_first(&passes[0], &pair) == REGNUBAS_FULL);
    CHECK(regnubas_pop_last(&passes[0], &pair) == REGNUBAS_FULL);
    CHECK(is(regnubas_get(&passes[1], UINT64_MAX), REGNUBAS_SOME, {5, UINT64_MAX}));
    regnubas_share share = regnubas_left(&passes[0]);
    CHECK(share.scx == 0);
    share = regnubas_left(&passes[1]);
    CHECK(share.nodes == 6 && share.scx == 2);
    regnubas_pass moved = passes[1]; // a pass may move
    passes[1].at = nullptr;
    CHECK(is(regnubas_get(&moved, 0), REGNUBAS_SOME, {6, 0}));
    regnubas_leave(&moved);
    CHECK(is(regnubas_end(passes, 2, &pair, 1), REGNUBAS_NO_PASS, 0));
    CHECK(is(regnubas_end(passes, 1, &pair, 1), REGNUBAS_SHARED, 0)); // the other has left
    CHECK(is(regnubas_close(&passes[0], &pair, 1), REGNUBAS_SOME, 2) && has(pair, 0, {6, 0}));
    CHECK(passes[0].at == nullptr);
}

void two_dictionaries() {
    regnubas_pass passes[2] = {}, other[2] = {};
    for (int time = 0; time < 2; time++) { // the second time over passes that are held
        CHECK(regnubas_make({9, 9, 1}, passes, 2) == REGNUBAS_NONE);
        CHECK(regnubas_make_trie({9, 9, 1}, other, 2) == REGNUBAS_NONE);
        CHECK(is(regnubas_insert(&passes[0], 1, {10, 1}), REGNUBAS_NONE, ZERO));
        CHECK(is(regnubas_insert(&other[0], 1, {20, 2}), REGNUBAS_NONE, ZERO));
        CHECK(is(regnubas_get(&passes[1], 1), REGNUBAS_SOME, {10, 1}) && is(regnubas_get(&other[1], 1), REGNUBAS_SOME, {20, 2}));
    }
    for (regnubas_pass &pass : passes) regnubas_leave(&pass);
    for (regnubas_pass &pass : other) regnubas_leave(&pass);
}

// Each replacement takes six words and a room for the answer, so some of it comes by the stack.
void both_words() {
    regnubas_pass pass = {};
    regnubas_value one = {1, UINT64_MAX}, two = {UINT64_MAX, 1};
    CHECK(regnubas_make({30, 30, 1}, &pass, 1) == REGNUBAS_NONE);
    CHECK(is(regnubas_insert(&pass, 5, one), REGNUBAS_NONE, ZERO));
    CHECK(is(regnubas_replace_if(&pass, 5, {1, 1}, two), REGNUBAS_SOME, one));
    CHECK(is(regnubas_replace_if(&pass, 5, {UINT64_MAX, UINT64_MAX}, two), REGNUBAS_SOME, one));
    CHECK(is(regnubas_get(&pass, 5), REGNUBAS_SOME, one));
    CHECK(is(regnubas_replace_if(&pass, 5, one, two), REGNUBAS_SOME, one));
    CHECK(is(regnubas_insert(&pass, 5, one), REGNUBAS_SOME, two));
    CHECK(is(regnubas_delete(&pass, 5), REGNUBAS_SOME, one));
    CHECK(is(regnubas_insert_new(&pass, 5, two), REGNUBAS_NONE, ZERO));
    CHECK(is(regnubas_insert_new(&pass, 5, one), REGNUBAS_SOME, two));
    CHECK(is(regnubas_delete_if(&pass, 5, {UINT64_MAX, UINT64_MAX}), REGNUBAS_SOME, two));
    CHECK(is(regnubas_delete_if(&pass, 5, two), REGNUBAS_SOME, two));
    CHECK(is(regnubas_delete_if(&pass, 5, two), REGNUBAS_NONE, ZERO));
    regnubas_pair pair = {};
    CHECK(is(regnubas_close(&pass, &pair, 1), REGNUBAS_SOME, 0));
}

// A key far from all others takes two nodes in a trie, and one in a tree.
void a_far_key(uint32_t (*make)(regnubas_limits, regnubas_pass *, size_t), uint32_t nodes) {
    regnubas_pass pass = {};
    CHECK(make({20, 20, 1}, &pass, 1) == REGNUBAS_NONE);
    for (uint64_t key = 1; key <= 5; key++) CHECK(is(regnubas_insert(&pass, key, {key, 0}), REGNUBAS_NONE, ZERO));
    CHECK(regnubas_left(&pass).nodes == 11);
    CHECK(is(regnubas_insert(&pass, uint64_t{1} << 63, {6, 0}), REGNUBAS_NONE, ZERO));
    CHECK(regnubas_left(&pass).nodes == 11 - nodes);
    regnubas_leave(&pass);
}

// Rising pairs, a leap between each two.
std::vector<regnubas_pair> rising(uint64_t count) {
    std::vector<regnubas_pair> pairs(count + 1); // one more, so that there is a place to point to
    for (uint64_t i = 0; i < count; i++) pairs[i] = {3 * i, value_of(3 * i)};
    return pairs;
}

template <typename Begin> void pairs_to_begin_with(Begin begin) {
    regnubas_pass passes[32] = {};
    for (uint64_t count : {0, 1, 4, 5, 100, 100000}) {
        std::vector<regnubas_pair> pairs = rising(count), left(count + 1);
        CHECK(begin(regnubas_limits{30, 10, 1}, pairs.data(), count, passes, 2) == REGNUBAS_NONE); // over those that are held
        for (uint64_t i = 0; i < count; i++) CHECK(is(regnubas_get(&passes[i % 2], 3 * i), REGNUBAS_SOME, value_of(3 * i)));
        CHECK(is(regnubas_get(&passes[0], 1), REGNUBAS_NONE, ZERO));
        regnubas_share share = regnubas_left(&passes[1]);
        CHECK(share.nodes == 30 && share.scx == 10);
        CHECK(is(regnubas_insert(&passes[1], 1, ZERO), REGNUBAS_NONE, ZERO));
        CHECK(is(regnubas_end(passes, 2, left.data(), count + 1), REGNUBAS_SOME, count + 1));
        CHECK(count == 0 || (has(left[0], 0, value_of(0)) && has(left[1], 1, ZERO) && has(left[count], 3 * count - 3 + (count == 1), count == 1 ? ZERO : value_of(3 * count - 3))));
    }
    std::vector<regnubas_pair> pairs = rising(9);
    CHECK(begin(regnubas_limits{1, 1, 1}, pairs.data(), 9, passes, 33) == REGNUBAS_LIMITS);
    CHECK(begin(regnubas_limits{1, 1, 1}, pairs.data(), 9, passes, 0) == REGNUBAS_LIMITS);
    CHECK(begin(regnubas_limits{32769, 1, 1}, pairs.data(), 9, passes, 2) == REGNUBAS_LIMITS);
    CHECK(begin(regnubas_limits{32768, 1, 1}, pairs.data(), 9, passes, 32) == REGNUBAS_TOO_MANY);
    pairs[5].key = pairs[4].key;
    CHECK(begin(regnubas_limits{1, 1, 1}, pairs.data(), 9, passes, 2) == REGNUBAS_ORDER);
    CHECK(begin(regnubas_limits{1, 1, 1}, pairs.data(), 5, passes, 2) == REGNUBAS_NONE);
    CHECK(is(regnubas_get(&passes[1], 12), REGNUBAS_SOME, value_of(12)));
    for (regnubas_pass &pass : passes) regnubas_leave(&pass);
}

// Four threads work, and it is renewed, ten times. What is left is what went in and did not come out.
template <typename Make> void renewals(Make make, uint32_t far_nodes) {
    constexpr uint64_t TIMES = 10, EACH = 300;
    constexpr regnubas_limits LIMITS = {8000, 4000, 1};
    regnubas_pass passes[THREADS] = {};
    std::vector<regnubas_pair> pairs(THREADS * EACH * TIMES + 1);
    CHECK(make(LIMITS, passes, THREADS) == REGNUBAS_NONE);
    uint64_t sum = 0, count = 0;
    for (uint64_t time = 0; time < TIMES; time++) {
        uint64_t sums[THREADS] = {};
        in_threads(passes, [time, &sums](regnubas_pass *pass, uint64_t number) {
            for (uint64_t i = 0; i < EACH; i++) {
                uint64_t key = key_of(number, time * EACH + i);
                CHECK(is(again([&] { return regnubas_insert(pass, key, value_of(key)); }), REGNUBAS_NONE, ZERO));
                if (i % 3 != 0) sums[number] += key;
                else CHECK(is(again([&] { return regnubas_delete(pass, key); }), REGNUBAS_SOME, value_of(key)));
            }
        });
        for (uint64_t added : sums) sum += added;
        count += THREADS * EACH * 2 / 3;
        CHECK(is(regnubas_renew({32769, 1, 1}, passes, THREADS, pairs.data(), pairs.size()), REGNUBAS_LIMITS, 0));
        CHECK(is(regnubas_renew(LIMITS, passes, THREADS - 1, pairs.data(), pairs.size()), REGNUBAS_SHARED, 0));
        CHECK(is(regnubas_renew(LIMITS, passes, THREADS, pairs.data(), pairs.size()), REGNUBAS_SOME, count));
        uint64_t found = 0;
        for (uint64_t i = 0; i < count; i++) {
            found += pairs[i].key;
            CHECK(is(regnubas_get(&passes[i % THREADS], pairs[i].key), REGNUBAS_SOME, value_of(pairs[i].key)));
        }
        CHECK(found == sum);
    }
    CHECK(regnubas_left(&passes[1]).nodes == LIMITS.nodes);
    CHECK(is(regnubas_insert(&passes[1], uint64_t{1} << 63, ZERO), REGNUBAS_NONE, ZERO));
    CHECK(regnubas_left(&passes[1]).nodes == LIMITS.nodes - far_nodes); // of the shape that it was
    regnubas_pair one = {};
    CHECK(is(regnubas_renew({1, 1, 1}, passes, THREADS, &one, 1), REGNUBAS_SOME, count + 1) && one.key == pairs[0].key);
    CHECK(is(regnubas_get(&passes[3], uint64_t{1} << 63), REGNUBAS_SOME, ZERO));
    regnubas_pass many[32] = {};
    CHECK(make(regnubas_limits{9, 9, 1}, many, 32) == REGNUBAS_NONE);
    CHECK(is(regnubas_insert(&many[7], 5, {50, 1}), REGNUBAS_NONE, ZERO));
    CHECK(is(regnubas_renew({32768, 9, 1}, many, 32, &one, 1), REGNUBAS_TOO_MANY, 1) && has(one, 5, {50, 1}));
    for (regnubas_pass &pass : many) CHECK(pass.at == nullptr);
    CHECK(is(regnubas_renew({1, 1, 1}, many, 32, &one, 1), REGNUBAS_NO_PASS, 0));
    for (regnubas_pass &pass : passes) regnubas_leave(&pass);
}

// One pass rests, and waits for the other until that is away; an end waits for nobody.
void one_that_lasts(decltype(regnubas_make) make) {
    regnubas_pass passes[2] = {};
    regnubas_pair pairs[2] = {};
    uint32_t other = 9;
    CHECK(make(regnubas_limits{9, 9, 1}, passes, 2) == REGNUBAS_NONE);
    CHECK(regnubas_back(&passes[1]) == REGNUBAS_NO_PASS && is(regnubas_insert(&passes[1], 7, {70, 1}), REGNUBAS_NONE, ZERO));
    CHECK(regnubas_rest(&passes[0], &other) == REGNUBAS_NONE); // its whole share is left
    while (regnubas_left(&passes[0]).nodes > 1) CHECK(regnubas_insert(&passes[0], 5, ZERO).status <= REGNUBAS_SOME);
    CHECK(regnubas_rest(&passes[0], &other) == REGNUBAS_SOME && other == 1);
    CHECK(regnubas_away(&passes[1]) == REGNUBAS_NONE && regnubas_away(&passes[1]) == REGNUBAS_NO_PASS);
    CHECK(is(regnubas_get(&passes[1], 7), REGNUBAS_NO_PASS, ZERO) && regnubas_left(&passes[1]).nodes == 0);
    CHECK(regnubas_rest(&passes[1], &other) == REGNUBAS_NO_PASS && is(regnubas_close(&passes[1], pairs, 2), REGNUBAS_NO_PASS, 0));
    for (uint64_t i = 0; i < 100; i++) { // shares of nine are enough, since they come back a few rests later
        regnubas_answer answer = regnubas_insert(&passes[0], 5, {i, 1});
        for (int rests = 0; answer.status == REGNUBAS_FULL && rests < 4; rests++) {
            CHECK(regnubas_rest(&passes[0], &other) == REGNUBAS_NONE);
            answer = regnubas_insert(&passes[0], 5, {i, 1});
        }
        CHECK(answer.status == REGNUBAS_SOME);
    }
    CHECK(is(regnubas_end(passes, 2, pairs, 2), REGNUBAS_NO_PASS, 0));
    CHECK(regnubas_back(&passes[1]) == REGNUBAS_NONE && is(regnubas_get(&passes[1], 5), REGNUBAS_SOME, {99, 1}));
    CHECK(is(regnubas_end(passes, 2, pairs, 2), REGNUBAS_SOME, 2) && has(pairs[0], 5, {99, 1}) && has(pairs[1], 7, {70, 1}));
    CHECK(make(regnubas_limits{9, 9, 1}, passes, 2) == REGNUBAS_NONE && regnubas_away(&passes[0]) == REGNUBAS_NONE);
    regnubas_leave(&passes[0]); // one that is away leaves
    CHECK(regnubas_back(&passes[0]) == REGNUBAS_NO_PASS && regnubas_away(&passes[0]) == REGNUBAS_NO_PASS);
    CHECK(is(regnubas_insert(&passes[1], 7, {70, 1}), REGNUBAS_NONE, ZERO) && is(regnubas_close(&passes[1], pairs, 2), REGNUBAS_SOME, 1));
    CHECK(regnubas_make(regnubas_limits{9, 9, 1}, passes, 1) == REGNUBAS_NONE); // one that does not last
    CHECK(regnubas_away(&passes[0]) == REGNUBAS_NO_PASS && regnubas_back(&passes[0]) == REGNUBAS_NO_PASS);
    CHECK(regnubas_rest(&passes[0], &other) == REGNUBAS_NONE && is(regnubas_get(&passes[0], 7), REGNUBAS_NONE, ZERO));
    regnubas_leave(&passes[0]);
}

// A leaf of four pairs is one node, and what it replaced comes back: so there are more pairs than nodes.
void more_pairs_than_nodes() {
    regnubas_pass pass = {};
    std::vector<regnubas_pair> pairs(2 * 9);
    uint32_t other = 9;
    CHECK(regnubas_make_lasting_trie(regnubas_limits{9, 9, 1}, &pass, 1) == REGNUBAS_NONE);
    for (uint64_t key = 0; key < 12; key++) {
        CHECK(is(regnubas_insert(&pass, key, value_of(key)), REGNUBAS_NONE, ZERO));
        for (int i = 0; i < 8; i++) CHECK(regnubas_rest(&pass, &other) == REGNUBAS_NONE);
    }
    CHECK(is(regnubas_close(&pass, pairs.data(), pairs.size()), REGNUBAS_SOME, 12));
    for (uint64_t key = 0; key < 12; key++) CHECK(has(pairs[key], key, value_of(key)));
}

} // namespace

int main(int argc, char **argv) {
    refusals();
    shares();
    both_words();
    two_dictionaries();
    a_far_key(regnubas_make, 1);
    a_far_key(regnubas_make_trie, 2);
    pairs_to_begin_with(regnubas_make_of_pairs);
    pairs_to_begin_with(regnubas_make_trie_of_pairs);
    renewals(regnubas_make, 3);
    renewals(regnubas_make_trie, 2);
    one_that_lasts(regnubas_make_lasting);
    one_that_lasts(regnubas_make_lasting_trie);
    more_pairs_than_nodes();
    for (int rounds = argc > 1 ? std::atoi(argv[1]) : 1; rounds > 0; rounds--) {
        keys_and_counter(regnubas_make, close_all);
        keys_and_counter(regnubas_make_trie, end_all);
        one_setter_a_key();
        queue(regnubas_make);
        queue(regnubas_make_trie);
    }
    std::puts("ok");
    return 0;
}
