// Rounds on cells: `llx`, `own`, `two`, `shared`.
#pragma once
#include <optional>

#include "forest.hpp"
#include "tally.hpp"

namespace cells {

// Node 0 is nobody's, 1 to 8 are the cells.
constexpr Word CELLS = 8;
constexpr Word OPENING = CELLS + 1;

enum class Work { llx, own, two, shared };

// `look` and `put` are calls in `bench` too: inlined into the loop they would be measured as something
// that no caller with other code around it has.
[[gnu::noinline]] inline LlxEnd look(const Forest<NODE_WORDS>& forest, Word cell, Snap& snap) {
    const Table<NODE_WORDS> table = forest.table();
    return table.llx(table.node(cell), snap);
}

// Puts a fresh node with this value into the left field of the first of the nodes. There is no answer where
// the share is used up.
template <std::size_t COUNT>
[[gnu::noinline]] std::optional<bool> put(const Forest<NODE_WORDS>& forest, Pass& pass, const std::array<Snap, COUNT>& snaps,
                                          Word value) {
    if (pass.nodes == 0 || pass.scx == 0) return std::nullopt;
    const Table<NODE_WORDS> table = forest.table();
    const Word call = pass.taken();
    const Word fresh = pass.fresh();
    const Word record = pass.record();
    table.node(fresh).store(VALUE, value);
    return table.put<0>(record, snaps, LEFT_SIDE, fresh, snaps[0].left, call);
}

// The two cells of a thread. Most works take the first alone. Up to four threads have own cells that do
// not lie side by side, and so share no line of the cache.
struct Pair {
    Word first, second;

    Pair(Work work, Word thread) {
        const Word apart = 1 + 2 * (thread % 4);
        first = work == Work::shared ? 1 : work == Work::two ? apart : apart + thread / 4 % 2;
        second = 1 + first % CELLS;
    }
};

inline void count(Tally& tally, std::optional<bool> done) {
    if (!done) tally.fail++;
    else if (*done) tally.done++;
    else tally.lost++;
}

// The fields are read, so that no compiler leaves out what gives them.
inline void look_at(const Forest<NODE_WORDS>& forest, Word cell, Tally& tally) {
    Snap snap;
    if (look(forest, cell, snap) == LlxEnd::snapshot && snap.left == snap.right) tally.done++;
    else tally.fail++;
}

inline void put_in(const Forest<NODE_WORDS>& forest, Pass& pass, Word cell, Tally& tally) {
    std::array<Snap, 1> snaps;
    if (look(forest, cell, snaps[0]) == LlxEnd::snapshot) count(tally, put(forest, pass, snaps, 1));
    else tally.fail++;
}

inline void put_in_first(const Forest<NODE_WORDS>& forest, Pass& pass, Pair pair, Tally& tally) {
    std::array<Snap, 2> snaps;
    const LlxEnd first = look(forest, pair.first, snaps[0]);
    const LlxEnd second = look(forest, pair.second, snaps[1]);
    if (first == LlxEnd::snapshot && second == LlxEnd::snapshot) count(tally, put(forest, pass, snaps, 1));
    else tally.fail++;
}

inline Tally rounds(const Forest<NODE_WORDS>& forest, Work work, Word calls, Word thread) {
    Pass pass = forest.pass(thread);
    const Pair pair(work, thread);
    Tally tally;
    for (Word call = 0; call < calls; call++) {
        switch (work) {
            case Work::llx: look_at(forest, pair.first, tally); break;
            case Work::own:
            case Work::shared: put_in(forest, pass, pair.first, tally); break;
            case Work::two: put_in_first(forest, pass, pair, tally); break;
        }
    }
    return tally;
}

}  // namespace cells
