// The C++ twin of the program `bench`: the same works, the same words, the same rows.
//
//     g++ -std=c++17 -O3 -march=x86-64-v2 -pthread -o twin twin.cpp
//     ./twin WORK|cells|tree|peers|trie|all [THREADS [CALLS [TIMES [KEYS]]]]
#include <algorithm>
#include <charconv>
#include <chrono>
#include <cstdio>
#include <cstring>
#include <optional>
#include <string>
#include <thread>
#include <vector>

#include "cells.hpp"
#include "maps.hpp"

namespace {

constexpr Word MOST_THREADS_ON_A_MAP = 8;
constexpr Word MOST_KEYS = 100000;
constexpr Word USUAL_KEYS = 1000;
constexpr Word KEYS_OF_PEERS = 10000;

struct WorkRow {
    std::string kind, name;
    Word work;
    Word most_threads, most_calls, usual_calls;
};

WorkRow cell_row(cells::Work work, const char* name, Word threads, Word calls, Word usual) {
    return {"cells", name, static_cast<Word>(work), threads, calls, usual};
}

WorkRow tree_row(maps::Work work, const char* name, Word calls, Word usual) {
    return {"tree", name, static_cast<Word>(work), MOST_THREADS_ON_A_MAP, calls, usual};
}

WorkRow peer_row(maps::Work work, const char* name, Word calls, Word usual) {
    return {"peers", name, static_cast<Word>(work), MOST_THREADS_ON_A_MAP, calls, usual};
}

const WorkRow WORKS[] = {
    cell_row(cells::Work::llx, "llx", cells::CELLS, UINT32_MAX, 1000000),
    cell_row(cells::Work::own, "own", cells::CELLS, SHARE, 30000),
    cell_row(cells::Work::two, "two", cells::CELLS / 2, SHARE, 30000),
    cell_row(cells::Work::shared, "shared", MOST_PASSES, SHARE, 30000),
    tree_row(maps::Work::get, "get", UINT32_MAX, 100000),
    tree_row(maps::Work::mix90, "mix90", 200000, 100000),
    tree_row(maps::Work::mix50, "mix50", 40000, 20000),
    tree_row(maps::Work::mix0, "mix0", 20000, 20000),
    tree_row(maps::Work::insert, "insert", 10000, 10000),
    tree_row(maps::Work::insert_new, "insert_new", 10000, 10000),
    tree_row(maps::Work::remove, "delete", SHARE, 400),
    tree_row(maps::Work::remove_if, "delete_if", SHARE, 400),
    tree_row(maps::Work::pop, "pop", SHARE, 400),
    tree_row(maps::Work::pop_last, "pop_last", SHARE, 400),
    tree_row(maps::Work::replace, "replace", SHARE, 20000),
    tree_row(maps::Work::succ, "succ", UINT32_MAX, 20000),
    tree_row(maps::Work::pred, "pred", UINT32_MAX, 20000),
    tree_row(maps::Work::range1, "range1", UINT32_MAX, 2000),
    tree_row(maps::Work::range4, "range4", UINT32_MAX, 2000),
    tree_row(maps::Work::range16, "range16", UINT32_MAX, 2000),
    tree_row(maps::Work::range64, "range64", UINT32_MAX, 2000),
    tree_row(maps::Work::rise_insert, "rise_insert", 10000, 1000),
    tree_row(maps::Work::rise_get, "rise_get", UINT32_MAX, 10000),
    tree_row(maps::Work::schedule, "schedule", 8000, 2000),
    {"tree", "load", static_cast<Word>(maps::Work::load), 1, 400000, 100000},
    peer_row(maps::Work::get, "peer_get", UINT32_MAX, 100000),
    peer_row(maps::Work::mix90, "peer_mix90", 200000, 100000),
    peer_row(maps::Work::mix50, "peer_mix50", 40000, 20000),
    peer_row(maps::Work::insert, "peer_insert", 10000, 10000),
    peer_row(maps::Work::succ, "peer_succ", UINT32_MAX, 20000),
    peer_row(maps::Work::range64, "peer_range64", UINT32_MAX, 2000),
};

// All works. What is done on a tree is done on a trie too, by a name that says so.
std::vector<WorkRow> all_works() {
    std::vector<WorkRow> works(std::begin(WORKS), std::end(WORKS));
    for (WorkRow row : WORKS) {
        if (row.kind != "tree") continue;
        row.kind = "trie";
        row.name = "trie_" + row.name;
        works.push_back(row);
    }
    return works;
}

struct Task {
    WorkRow row;
    Word threads, calls, times, keys;

    maps::Task on_map() const {
        const maps::Deal deal = row.kind == "peers" ? maps::Deal::halves : maps::Deal::remainders;
        return {static_cast<maps::Work>(row.work), deal, threads, calls, keys};
    }
};

struct Repetition {
    Word nanos;
    Tally tally;
};

// Lets so many threads work, from this number on: half of them from a new thread, as the kit's `map_vec`
// starts those of `bench`. On which processor the system puts a thread depends on who starts it.
template <class F>
void crowd(Word first, Word count, const F& work) {
    if (count == 1) return work(first);
    const Word half = count / 2;
    std::thread front([&] { crowd(first, half, work); });
    crowd(first + half, count - half, work);
    front.join();
}

template <class F>
Repetition timed(Word threads, const F& rounds) {
    std::vector<Tally> tallies(threads);
    const auto work = [&](Word thread) { tallies[thread] = rounds(thread); };
    const auto start = std::chrono::steady_clock::now();
    crowd(0, threads, work);
    const std::chrono::nanoseconds took = std::chrono::steady_clock::now() - start;
    Tally all;
    for (const Tally& tally : tallies) all.add(tally);
    return {static_cast<Word>(took.count()), all};
}

// Makes a map of as many pairs as there are rounds, which is timed, and looks some up, as far apart as they can be.
template <class Map>
Repetition load(const maps::Task& task) {
    const std::vector<Pair> pairs = maps::rising(task.calls);
    const auto start = std::chrono::steady_clock::now();
    const Map map(pairs);
    const std::chrono::nanoseconds took = std::chrono::steady_clock::now() - start;
    Tally tally;
    const Word looks = std::min<Word>(task.calls, 100);
    for (Word look = 0; look < looks; look++) maps::look_up(map, look * (task.calls / looks), tally);
    tally.done = task.calls;
    return {static_cast<Word>(took.count()), tally};
}

template <class Map>
Repetition run_on_map(const maps::Task& task) {
    if (task.work == maps::Work::load) return load<Map>(task);
    const Map map(task.threads + task.fillers(), maps::TRIES);
    maps::fill_up(map, task);
    return timed(task.threads, [&](Word thread) { return maps::rounds(map, task, thread); });
}

Repetition run_on_cells(const Task& task) {
    const Forest<NODE_WORDS> forest(cells::OPENING, task.threads);
    const auto work = static_cast<cells::Work>(task.row.work);
    return timed(task.threads, [&](Word thread) { return cells::rounds(forest, work, task.calls, thread); });
}

Repetition run(const Task& task) {
    if (task.row.kind == "cells") return run_on_cells(task);
    return task.row.kind == "trie" ? run_on_map<Trie>(task.on_map()) : run_on_map<Tree>(task.on_map());
}

// In nanoseconds with one decimal. None is told where the task asks for none.
std::string per_call(Word nanos, const Task& task) {
    const Word tenths = task.times == 0 ? 0 : nanos * 10 / task.calls;
    return std::to_string(tenths / 10) + "." + std::to_string(tenths % 10);
}

void measure(const Task& task) {
    std::vector<Repetition> made;
    for (Word time = 0; time < std::max<Word>(task.times, 1); time++) made.push_back(run(task));
    std::sort(made.begin(), made.end(), [](const auto& a, const auto& b) { return a.nanos < b.nanos; });
    const Repetition& best = made.front();
    const Repetition& median = made[made.size() / 2];
    const Tally& tally = best.tally;
    std::printf("cpp,%s,%ju,%ju,%ju,%ju,%s,%s,%ju,%ju,%ju,%ju\n", task.row.name.c_str(), task.keys, task.threads,
                task.calls, task.times, per_call(median.nanos, task).c_str(), per_call(best.nanos, task).c_str(),
                tally.done, tally.lost, tally.fail, tally.checksum);
    std::fflush(stdout);
}

// The number from `least` to `most` at this place of the words, or the usual one where there is no such word.
std::optional<Word> number_at(int count, char** words, int place, Word least, Word most, Word usual) {
    if (place >= count) return usual;
    const char* end = words[place] + std::strlen(words[place]);
    Word number = 0;
    const auto [stop, error] = std::from_chars(words[place], end, number);
    if (error != std::errc() || stop != end || number < least || number > most) return std::nullopt;
    return number;
}

// How many keys a row tells: none of cells, as many as pairs of a load.
Word keys_told(const WorkRow& row, Word calls, Word keys) {
    if (row.kind == "cells") return 0;
    return static_cast<maps::Work>(row.work) == maps::Work::load ? calls : keys;
}

std::optional<Task> task_of(const WorkRow& row, int count, char** words) {
    const auto threads = number_at(count, words, 2, 1, row.most_threads, 1);
    const auto calls = number_at(count, words, 3, 1, row.most_calls, row.usual_calls);
    const auto times = number_at(count, words, 4, 0, UINT32_MAX, 15);
    const auto keys = number_at(count, words, 5, 1, MOST_KEYS, row.kind == "peers" ? KEYS_OF_PEERS : USUAL_KEYS);
    if (!threads || !calls || !times || !keys || count > 6) return std::nullopt;
    return Task{row, *threads, *calls, *times, keys_told(row, *calls, *keys)};
}

int refuse() {
    std::fputs("usage: twin WORK|cells|tree|peers|trie|all [THREADS [CALLS [TIMES [KEYS]]]]\n", stderr);
    return 2;
}

}  // namespace

int main(int count, char** words) {
    const std::string name = count > 1 ? words[1] : "";
    std::vector<Task> tasks;
    for (const WorkRow& row : all_works()) {
        if (name != "all" && name != row.kind && name != row.name) continue;
        const auto task = task_of(row, count, words);
        if (!task) return refuse();
        tasks.push_back(*task);
    }
    if (tasks.empty()) return refuse();
    std::puts("structure,work,keys,threads,calls,times,median_ns,best_ns,done,lost,fail,checksum");
    for (const Task& task : tasks) measure(task);
}
