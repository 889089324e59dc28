// Rounds on a tree or a trie: `get`, `mix90`, `mix50`, `mix0`, `insert`, `insert_new`, `delete`, `delete_if`,
// `pop`, `pop_last`, `replace`, `succ`, `pred`, `range1`, `range4`, `range16`, `range64`, `rise_insert`,
// `rise_get`, `schedule`; and `load`, which has none: a map is made that begins with pairs.
#pragma once
#include "dictionary.hpp"
#include "tally.hpp"

namespace maps {

enum class Work {
    get, mix90, mix50, mix0, insert, insert_new, remove, remove_if, pop, pop_last, replace, succ, pred,
    range1, range4, range16, range64, rise_insert, rise_get, schedule, load
};

// Whether rounds put keys in behind all others.
inline bool puts_behind(Work work) { return work == Work::rise_insert || work == Work::schedule; }

// Whether the map has all keys at first, put in in order, and not half of them as drawn.
inline bool rises(Work work) { return puts_behind(work) || work == Work::rise_get; }

// How many pairs a pass puts into the map before the threads start.
constexpr Word PAIRS_OF_A_PASS = 10000;
constexpr Word TRIES = 1000;

// How keys, and chances of a hundred, come out of random words: by the remainder of a word each; or both by
// the halves of one word, as the maps of others were measured.
enum class Deal { remainders, halves };

// Numbers by Marsaglia's xorshift (13, 7, 17). Each stream has a seed of its own.
struct Draws {
    static constexpr Word APART = 0x9E3779B97F4A7C15u;

    Word word;
    Deal deal;

    Draws(Word stream, Deal deal) : word(88172645463325252u ^ stream * APART), deal(deal) {}

    static Draws of_thread(Word thread, Deal deal) {
        Draws draws(MOST_PASSES + thread, deal);
        if (deal == Deal::halves) draws.word = (thread + 1) * APART;
        return draws;
    }

    Word next() {
        word ^= word << 13;
        word ^= word >> 7;
        word ^= word << 17;
        return word;
    }

    Word key(Word keys) { return deal == Deal::remainders ? next() % keys : (next() >> 32) * keys >> 32; }

    Word chance() { return deal == Deal::remainders ? next() % 100 : (word & 0xffffffff) * 100 >> 32; }
};

// The keys of a thread's rounds, or of those that fill a map: drawn, or in order.
struct Keys {
    Draws draws;
    Word next = 0, apart = 0;

    static Keys rising(Word next, Word apart) { return {Draws(0, Deal::remainders), next, apart}; }

    Word key(Word keys) { return apart == 0 ? draws.key(keys) : (next += apart) - apart; }
};

// What the rounds of all threads are made of.
struct Task {
    Work work;
    Deal deal;
    Word threads, calls, keys;

    // How many pairs the map has at the start, and how many passes put them in.
    Word pairs() const { return rises(work) ? keys : keys / 2; }
    Word fillers() const { return (pairs() + PAIRS_OF_A_PASS - 1) / PAIRS_OF_A_PASS; }

    Keys keys_of_filler(Word filler) const {
        return rises(work) ? Keys::rising(filler * PAIRS_OF_A_PASS, 1) : Keys{Draws(filler, deal)};
    }

    Keys keys_of_thread(Word thread) const {
        return puts_behind(work) ? Keys::rising(keys + thread, threads) : Keys{Draws::of_thread(thread, deal)};
    }
};

// So many keys in order, each with itself.
inline std::vector<Pair> rising(Word count) {
    std::vector<Pair> pairs(count);
    for (Word key = 0; key < count; key++) pairs[key] = {key, key};
    return pairs;
}

// Puts so many pairs of new keys into the map.
template <class Map>
void fill(const Map& map, Word number, Keys source, Word keys, Word pairs) {
    Pass pass = map.pass(number);
    for (Word done = 0; done < pairs;) {
        const Word key = source.key(keys);
        if (!map.insert_new(pass, key, key).told) done++;
    }
}

// Puts the pairs of the start into the map, by the passes behind those of the threads, the last of them first.
template <class Map>
void fill_up(const Map& map, const Task& task) {
    Word left = task.pairs();
    for (Word filler = 0; left > 0; filler++) {
        const Word pairs = left < PAIRS_OF_A_PASS ? left : PAIRS_OF_A_PASS;
        fill(map, task.threads + task.fillers() - 1 - filler, task.keys_of_filler(filler), task.keys, pairs);
        left -= pairs;
    }
}

inline void count(Tally& tally, End end) {
    if (end == End::done) tally.done++;
    else if (end == End::contended) tally.lost++;
    else tally.fail++;
}

inline void tell(Tally& tally, const std::optional<Word>& value) { tally.tell(value ? *value + 1 : 0); }

template <class Map>
void look_up(const Map& map, Word key, Tally& tally) {
    tell(tally, map.get(key));
    tally.done++;
}

inline void count_value(Tally& tally, const Reply<std::optional<Value>>& reply) {
    if (reply.end == End::done) tell(tally, reply.told);
    count(tally, reply.end);
}

inline void count_pair(Tally& tally, const Reply<std::optional<Pair>>& reply) {
    if (reply.end == End::done) tally.tell(reply.told ? reply.told->key + reply.told->value + 1 : 0);
    count(tally, reply.end);
}

template <class Map>
void list(const Map& map, Word key, Word most, Tally& tally) {
    typename Map::RangeRoom room;
    const auto reply = map.range(key, UINT64_MAX, most, room);
    if (reply.end == End::done)
        for (const Pair& pair : reply.told) tally.tell(pair.key + pair.value + 1);
    count(tally, reply.end);
}

// Looks a key up in so many of a hundred rounds; in half of the others puts it in, in half takes it out.
template <class Map>
void mix(const Map& map, Pass& pass, Draws& draws, Word key, Word value, Word looks, Tally& tally) {
    const Word chance = draws.chance();
    if (chance < looks) look_up(map, key, tally);
    else if (chance < looks + (100 - looks) / 2) count_value(tally, map.insert(pass, key, value));
    else count_value(tally, map.remove(pass, key));
}

// Takes the first pair out, and puts this one in.
template <class Map>
void reschedule(const Map& map, Pass& pass, Word key, Word value, Tally& tally) {
    const auto first = map.pop_first(pass);
    if (first.end != End::done) return count(tally, first.end);
    const auto put = map.insert(pass, key, value);
    count_pair(tally, put.end == End::done ? first : Reply<std::optional<Pair>>{put.end, {}});
}

template <class Map>
Tally rounds(const Map& map, const Task& task, Word thread) {
    Pass pass = map.pass(thread);
    Keys keys = task.keys_of_thread(thread);
    Tally tally;
    for (Word call = 0; call < task.calls; call++) {
        const Word key = keys.key(task.keys);
        switch (task.work) {
            case Work::rise_get:
            case Work::get: look_up(map, key, tally); break;
            case Work::mix90: mix(map, pass, keys.draws, key, call, 90, tally); break;
            case Work::mix50: mix(map, pass, keys.draws, key, call, 50, tally); break;
            case Work::mix0: mix(map, pass, keys.draws, key, call, 0, tally); break;
            case Work::rise_insert:
            case Work::insert: count_value(tally, map.insert(pass, key, call)); break;
            case Work::insert_new: count_value(tally, map.insert_new(pass, key, call)); break;
            case Work::remove: count_value(tally, map.remove(pass, key)); break;
            case Work::remove_if: count_value(tally, map.remove_if(pass, key, key)); break;
            case Work::pop: count_pair(tally, map.pop_first(pass)); break;
            case Work::pop_last: count_pair(tally, map.pop_last(pass)); break;
            case Work::replace: count_value(tally, map.replace_if(pass, key, key, key)); break;
            case Work::succ: count_pair(tally, map.successor(key)); break;
            case Work::pred: count_pair(tally, map.predecessor(key)); break;
            case Work::range1: list(map, key, 1, tally); break;
            case Work::range4: list(map, key, 4, tally); break;
            case Work::range16: list(map, key, 16, tally); break;
            case Work::range64: list(map, key, 64, tally); break;
            case Work::schedule: reschedule(map, pass, key, call, tally); break;
            case Work::load: break;
        }
    }
    return tally;
}

}  // namespace maps
