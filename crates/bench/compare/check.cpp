// Checks the replies of the twin's tree and trie: those of one thread against `std::map`, those of several by
// the keys that have gone in and come out. Prints what was checked; its status is 1 at the first wrong reply.
//
//     g++ -std=c++17 -O2 -pthread -o check check.cpp && ./check [SEED]
#include <atomic>
#include <cstdio>
#include <map>
#include <string>
#include <thread>
#include <vector>

#include "dictionary.hpp"

namespace {

constexpr Word TRIES = 1000000;
constexpr Word THREADS = 8;

using Model = std::map<Word, Value>;
using Told = std::optional<Pair>;

void demand(bool holds, const char* what) {
    if (holds) return;
    std::printf("wrong: %s\n", what);
    std::exit(1);
}

// Numbers by xorshift.
struct Draws {
    Word word;

    explicit Draws(Word seed) : word(seed * 0x9E3779B97F4A7C15u + 1) {}

    Word next() {
        word ^= word << 13;
        word ^= word >> 7;
        return word ^= word << 17;
    }

    Word below(Word bound) { return next() % bound; }

    // Keys of one kind: dense ones, the greatest of all, powers of two and their neighbours, whole words, or ones
    // that are near a few places.
    Word key(Word kind) {
        switch (kind) {
            case 0: return below(60);
            case 1: return UINT64_MAX - below(60);
            case 2: return (Word(1) << below(64)) + below(3) - 1;
            case 3: return next();
            default: return (below(6) << below(64)) + below(5);
        }
    }
};

// What a call has told that has done what it had to do.
template <class T>
T told(const Reply<T>& reply) {
    demand(reply.end == End::done, "call that is refused");
    return reply.told;
}

bool same(const Told& told, Model::const_iterator found, Model::const_iterator none) {
    if (found == none) return !told;
    return told && told->key == found->first && told->value == found->second;
}

Model::const_iterator before(const Model& model, Model::const_iterator place) {
    return place == model.begin() ? model.end() : std::prev(place);
}

// The value that the model has for a key.
std::optional<Value> value_in(const Model& model, Word key) {
    const auto found = model.find(key);
    if (found == model.end()) return std::nullopt;
    return found->second;
}

// A value that the key has in three of four draws where it has one.
Value expected(const Model& model, Word key, Draws& draws) {
    const auto found = value_in(model, key);
    return found && draws.below(4) > 0 ? *found : draws.next();
}

// A call that looks alone, on the map and on its model.
template <class Map>
void look(const Map& map, const Model& model, Word key, Draws& draws) {
    const Word high = key + draws.below(100), most = draws.below(9);
    typename Map::RangeRoom room;
    switch (draws.below(4)) {
        case 0: return demand(map.get(key) == value_in(model, key), "get");
        case 1: return demand(same(told(map.successor(key)), model.upper_bound(key), model.end()), "successor");
        case 2:
            return demand(same(told(map.predecessor(key)), before(model, model.lower_bound(key)), model.end()),
                          "predecessor");
        default:
            auto next = model.lower_bound(key);
            Word count = 0;
            const auto reply = map.range(key, high, most, room);
            for (const Pair& pair : reply.told) {
                demand(next != model.end() && same(pair, next, model.end()) && pair.key <= high, "range");
                ++next, ++count;
            }
            demand(count == most || high < key || next == model.end() || next->first > high, "end of a range");
    }
}

// A call that may change the map, and the same of its model.
template <class Map>
void change(const Map& map, Pass& pass, Model& model, Word key, Draws& draws) {
    const Value value = Value(draws.next()) << draws.below(2) * 64 | draws.next();
    const Value seen = expected(model, key, draws);
    const auto old = value_in(model, key);
    switch (draws.below(9)) {
        case 0: case 1:
            demand(told(map.insert(pass, key, value)) == old, "insert");
            model[key] = value;
            return;
        case 2: case 3:
            demand(told(map.insert_new(pass, key, value)) == old, "insert_new");
            model.insert({key, value});
            return;
        case 4:
            demand(told(map.remove(pass, key)) == old, "delete");
            model.erase(key);
            return;
        case 5:
            demand(told(map.remove_if(pass, key, seen)) == old, "delete_if");
            if (old == seen) model.erase(key);
            return;
        case 6:
            demand(told(map.replace_if(pass, key, seen, value)) == old, "replace_if");
            if (old == seen) model[key] = value;
            return;
        case 7:
            demand(same(told(map.pop_first(pass)), model.begin(), model.end()), "pop_first");
            if (!model.empty()) model.erase(model.begin());
            return;
        default:
            demand(same(told(map.pop_last(pass)), before(model, model.end()), model.end()), "pop_last");
            if (!model.empty()) model.erase(std::prev(model.end()));
    }
}

// Maps of one thread, until they have made so many calls.
template <class Map>
void check_calls(const char* name, Word calls, Draws& draws) {
    for (Word made = 0; made < calls; made += 5000) {
        const Map map(1, 1);
        Pass pass = map.pass(0);
        Model model;
        const Word kind = draws.below(5), changes = 1 + draws.below(3);
        for (Word call = 0; call < 5000; call++) {
            const Word key = draws.key(kind);
            if (draws.below(4) < changes) change(map, pass, model, key, draws);
            else look(map, model, key, draws);
        }
    }
    std::printf("%s: %ju calls of one thread reply as those of std::map\n", name, calls);
}

// Maps that begin with pairs.
template <class Map>
void check_planted(const char* name, Word rounds, Draws& draws) {
    for (Word round = 0; round < rounds; round++) {
        Model model;
        const Word kind = draws.below(5), most = draws.below(round % 10 ? 40 : 5000);
        for (Word put = 0; put < most; put++)
            model[draws.key(kind)] = Value(draws.next()) << draws.below(2) * 64 | draws.next();
        std::vector<Pair> pairs;
        for (const auto& [key, value] : model) pairs.push_back({key, value});
        const Map map(pairs);
        for (const auto& [key, value] : model) demand(map.get(key) == value, "get of a key at the start");
        for (Word call = 0; call < 200; call++) look(map, model, draws.key(kind), draws);
    }
    std::printf("%s: %ju maps that begin with pairs reply as those of std::map\n", name, rounds);
}

// Keys that went in and did not come out: how many, and their sum.
struct Balance {
    Word count = 0, sum = 0;

    void in(Word key) { count++, sum += key; }
    void out(Word key) { count--, sum -= key; }
    void add(const Balance& other) { count += other.count, sum += other.sum; }
    bool operator==(const Balance& other) const { return count == other.count && sum == other.sum; }
};

// Takes all pairs out.
template <class Map>
Balance rest(const Map& map, Pass& pass) {
    Balance rest;
    Word last = 0;
    while (const auto first = told(map.pop_first(pass))) {
        demand(rest.count == 0 || last < first->key, "order of what is left");
        last = first->key;
        rest.in(last);
    }
    return rest;
}

template <class F>
void with_threads(Word count, const F& work) {
    std::vector<std::thread> threads;
    for (Word number = 0; number < count; number++) threads.emplace_back([&work, number] { work(number); });
    for (std::thread& thread : threads) thread.join();
}

bool is_own(const Pair& pair) { return pair.value == pair.key; }

// One call of a thread of several. The value of a key is always the key.
template <class Map>
void share(const Map& map, Pass& pass, Word key, Word kind, Balance& balance) {
    typename Map::RangeRoom room;
    switch (kind) {
        case 0: if (!told(map.insert(pass, key, key))) balance.in(key); return;
        case 1: case 2: if (!told(map.insert_new(pass, key, key))) balance.in(key); return;
        case 3: if (told(map.remove(pass, key))) balance.out(key); return;
        case 4: if (told(map.remove_if(pass, key, key))) balance.out(key); return;
        case 5: if (const auto pair = told(map.pop_first(pass))) balance.out(pair->key); return;
        case 6: if (const auto pair = told(map.pop_last(pass))) balance.out(pair->key); return;
        case 7: told(map.replace_if(pass, key, key, key)); return;
        case 8:
            if (const auto pair = told(map.successor(key))) demand(key < pair->key && is_own(*pair), "successor");
            return;
        case 9:
            if (const auto pair = told(map.predecessor(key))) demand(pair->key < key && is_own(*pair), "predecessor");
            return;
        case 10: if (const auto value = map.get(key)) demand(*value == key, "get"); return;
        default:
            const auto reply = map.range(key, key + 50, 8, room);
            Word low = key;
            for (const Pair& pair : reply.told) {
                demand(low <= pair.key && pair.key <= key + 50 && is_own(pair), "range");
                low = pair.key + 1;
            }
    }
}

// Threads that make all calls on a map: what is left is what went in and did not come out.
template <class Map>
void check_sums(const char* name, Word rounds, Word seed) {
    constexpr Word CALLS = 10000;
    for (Word round = 0; round < rounds; round++) {
        const Map map(THREADS + 1, TRIES);
        std::vector<Balance> balances(THREADS);
        with_threads(THREADS, [&](Word number) {
            Draws draws((seed + round) * THREADS + number);
            Pass pass = map.pass(number);
            for (Word call = 0; call < CALLS; call++)
                share(map, pass, draws.below(round % 2 ? 300 : 20000), draws.below(12), balances[number]);
        });
        Balance all;
        for (const Balance& balance : balances) all.add(balance);
        Pass pass = map.pass(THREADS);
        demand(rest(map, pass) == all, "sum of the keys");
    }
    std::printf("%s: %ju calls of %ju threads leave the keys that went in and did not come out\n", name,
                rounds * THREADS * CALLS, THREADS);
}

// One thread puts keys in, rising or falling, one takes the first pair out: each comes out once, rising keys in
// order.
template <class Map>
void check_scheduler(const char* name, Word rounds) {
    constexpr Word KEYS = 10000;
    for (Word round = 0; round < rounds; round++) {
        const bool rises = round % 2 == 0;
        const Map map(2, TRIES);
        std::vector<bool> out(KEYS);
        with_threads(2, [&](Word number) {
            Pass pass = map.pass(number);
            if (number == 0) {
                for (Word key = 0; key < KEYS; key++)
                    demand(!told(map.insert(pass, rises ? key : KEYS - 1 - key, key)), "key that is new");
                return;
            }
            for (Word popped = 0, last = 0; popped < KEYS;) {
                const auto first = told(map.pop_first(pass));
                if (!first) continue;
                demand(!out[first->key] && (!rises || popped == 0 || last < first->key), "first pair");
                out[last = first->key] = true;
                popped++;
            }
        });
    }
    std::printf("%s: %ju keys put in by one thread come out once at another, rising ones in order\n", name,
                rounds * KEYS);
}

// One thread puts falling keys in, and looks each time whether the key before is still there; one takes the
// first pair out: where the key before was still there, the newer one comes out earlier.
template <class Map>
void check_falling(const char* name, Word rounds) {
    constexpr Word KEYS = 10000;
    for (Word round = 0; round < rounds; round++) {
        const Map map(2, TRIES);
        std::vector<bool> seen(KEYS + 1);
        std::vector<Word> order(KEYS + 1);
        with_threads(2, [&](Word number) {
            Pass pass = map.pass(number);
            if (number == 0) {
                for (Word key = KEYS; key-- > 0;) {
                    told(map.insert(pass, key, key));
                    seen[key + 1] = map.get(key + 1).has_value();
                }
                return;
            }
            for (Word popped = 0; popped < KEYS;) {
                const auto first = told(map.pop_first(pass));
                if (first) order[first->key] = popped++;
            }
        });
        for (Word key = 0; key + 1 < KEYS; key++)
            demand(!seen[key + 1] || order[key] < order[key + 1], "first pair beside a key that is newer and below");
    }
    std::printf("%s: %ju falling keys come out before those that were there behind them\n", name, rounds * KEYS);
}

// One thread goes from place to place, each with five keys that lie close together: it puts in one more, below them,
// and takes the least of the five out. The others look for the first key of the place where it is: it never is behind
// that least one.
template <class Map>
void check_first(const char* name, Word rounds) {
    constexpr Word PLACES = 2000;
    for (Word round = 0; round < rounds; round++) {
        const Map map(2, TRIES);
        Pass filler = map.pass(1);
        const auto key_at = [](Word place, Word key) { return place << 8 | key; };
        for (Word place = 0; place < PLACES; place++)
            for (Word key = 16; key <= 20; key++) told(map.insert(filler, key_at(place, key), 0));
        std::atomic<Word> here{0}, looks{0};
        with_threads(THREADS, [&](Word number) {
            if (number > 0) {
                for (Word place = 0; place < PLACES; place = here, looks++) {
                    const auto first = told(map.successor(key_at(place, 3)));
                    demand(first && first->key <= key_at(place, 16), "successor beside a key that is newer and below");
                }
                return;
            }
            Pass pass = map.pass(0);
            for (Word place = 0; place < PLACES; here = ++place) {
                for (const Word before = looks; looks < before + THREADS;) {}
                told(map.insert(pass, key_at(place, 5), 0));
                told(map.remove(pass, key_at(place, 16)));
            }
        });
    }
    std::printf("%s: at %ju places there is always a first key\n", name, rounds * PLACES);
}

template <class Map>
void check(const char* name, Word seed) {
    Draws draws(seed);
    check_calls<Map>(name, 1000000, draws);
    check_planted<Map>(name, 1000, draws);
    check_sums<Map>(name, 20, seed);
    check_scheduler<Map>(name, 60);
    check_falling<Map>(name, 60);
    check_first<Map>(name, 20);
}

}  // namespace

int main(int count, char** words) {
    const Word seed = count > 1 ? std::stoull(words[1]) : 1;
    check<Tree>("tree", seed);
    check<Trie>("trie", seed);
}
