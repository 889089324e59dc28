// The words that threads share, and LLX, SCX and HELP on them.
//
// They make the same atomic steps in the same order as Regnubas, on words that lie in the same order in
// one table, and every step is sequentially consistent. What is measured beside `bench` is thus the
// code around the steps, and nothing that another layout or a weaker order would win. That code is as
// short as it can be by hand: a call keeps where the words lie in registers, and reckons where a node
// begins once.
#pragma once
#include <array>
#include <atomic>
#include <cstdint>
#include <memory>

using Word = std::uint64_t;

// A word that threads share. `steps.cpp` has one of its own, which tells what is done with it.
#ifndef SHARED_WORD
#define SHARED_WORD std::atomic<Word>
#endif
using Shared = SHARED_WORD;

// A leaf has room for four pairs, with values of two words.
enum NodeWord : Word {
    HEAD, KEY, VALUE, LEFT, RIGHT, INFO, MARKED,
    MORE, KEY1, VALUE1, KEY2, VALUE2, KEY3, VALUE3, HIGH, HIGH1, HIGH2, HIGH3,
    NODE_WORDS
};

// An SCX-record has room for four nodes and for the info word that was found in each of them.
enum ScxWord : Word { STATE, ALL_FROZEN, PLAN, NEW, OLD, NODES, INFOS = NODES + 4, CALL = INFOS + 4, SCX_WORDS };

enum State : Word { IN_PROGRESS, COMMITTED, ABORTED };

enum Side : Word { LEFT_SIDE, RIGHT_SIDE };

// SCX-record 0 is the dummy with which every node opens.
constexpr Word FIRST_SCX = 1;
constexpr Word SHARE = 32768;
constexpr Word MOST_PASSES = 32;

// A node's number, and where its words are.
struct Node {
    Word number;
    Shared* words;

    Word load(Word word) const { return words[word].load(); }
    void store(Word word, Word value) const { words[word].store(value); }

    // Before any thread shares the word.
    void plant(Word word, Word value) const { words[word].store(value, std::memory_order_relaxed); }
};

struct Snap {
    Node node;
    Word scx, left, right;

    Word child(Side side) const { return side == RIGHT_SIDE ? right : left; }
};

enum class LlxEnd { snapshot, finalized, fail };

// A thread's number, and what is left of its share of nodes and SCX-records.
struct Pass {
    Word number;
    Word next_node, nodes;
    Word next_scx, scx;

    // How many SCX-records it has taken: the number of its next call.
    Word taken() const { return SHARE - scx; }

    Word fresh() {
        nodes--;
        return next_node++;
    }

    Word record() {
        scx--;
        return next_scx++;
    }
};

// The plan word: how many nodes there are, which of them are removed, and the field that is changed.
struct Plan {
    Word word;

    constexpr Plan(Word count, Word removed, Word at, Side side)
        : word(count | removed << 3 | at << 7 | Word(side) << 9) {}
    explicit constexpr Plan(Word found) : word(found) {}
    Word count() const { return word & 7; }
    bool removes(Word index) const { return word >> (3 + index) & 1; }
    Word at() const { return word >> 7 & 3; }
    NodeWord field() const { return word >> 9 & 1 ? RIGHT : LEFT; }
};

// Answers what it found, as the steps of `bench` do.
inline Word compare_exchange(Shared& word, Word expected, Word value) {
    word.compare_exchange_strong(expected, value);
    return expected;
}

// Where the words are, if a node takes so many. Each call has a copy of its own: what others could reach would
// have to be loaded again behind each step.
template <Word NODE_SIZE>
struct Table {
    Shared* nodes;
    Shared* records;

    Node node(Word number) const { return {number, nodes + NODE_SIZE * number}; }
    Shared* scx(Word number) const { return records + SCX_WORDS * number; }

    // Fills `snap` where it answers that there is one.
    [[gnu::always_inline]] LlxEnd llx(Node node, Snap& snap) const {
        const Word marked = node.load(MARKED);
        const Word info = node.load(INFO);
        const Word state = scx(info)[STATE].load();
        const Word marked_again = node.load(MARKED);
        if (__builtin_expect(state == ABORTED || (state == COMMITTED && !marked_again), true)) {
            const Word left = node.load(LEFT);
            const Word right = node.load(RIGHT);
            snap = {node, info, left, right};
            if (__builtin_expect(node.load(INFO) == info, true)) return LlxEnd::snapshot;
        }
        return is_finalized(*this, node.words, marked, info) ? LlxEnd::finalized : LlxEnd::fail;
    }

    // Fills an SCX-record, and makes its SCX: puts `fresh` into the field of the first of the nodes that is
    // on this side, and removes those that `removed` names. False where a node could not be frozen.
    template <Word REMOVED, std::size_t COUNT>
    [[gnu::always_inline]] bool put(Word record, const std::array<Snap, COUNT>& snaps, Side side, Word fresh,
                                    Word old, Word call) const {
        Shared* const words = scx(record);
        words[PLAN].store(Plan(COUNT, REMOVED, 0, side).word);
        words[NEW].store(fresh);
        words[OLD].store(old);
        for (Word index = 0; index < COUNT; index++) words[NODES + index].store(snaps[index].node.number);
        for (Word index = 0; index < COUNT; index++) words[INFOS + index].store(snaps[index].scx);
        words[CALL].store(call);
        return help_own<REMOVED>(words, record, snaps, side, fresh, old);
    }

private:
    // HELP of a record that the caller has just filled, and so with loads that find what is known.
    template <Word REMOVED, std::size_t COUNT>
    [[gnu::always_inline]] static bool help_own(Shared* words, Word record, const std::array<Snap, COUNT>& snaps,
                                                Side side, Word fresh, Word old) {
        words[PLAN].load();
        for (Word index = 0; index < COUNT; index++) {
            words[NODES + index].load();
            words[INFOS + index].load();
            const Word seen = snaps[index].scx;
            const Word found = compare_exchange(snaps[index].node.words[INFO], seen, record);
            if (__builtin_expect(found != seen && found != record, false)) return were_frozen(words);
        }
        words[ALL_FROZEN].store(1);
        for (Word index = 0; index < COUNT; index++)
            if (REMOVED >> index & 1) snaps[index].node.store(MARKED, 1);
        words[NEW].load();
        words[OLD].load();
        compare_exchange(snaps[0].node.words[LEFT + side], old, fresh);
        words[STATE].store(COMMITTED);
        return true;
    }

    // Whether all nodes of a record were frozen, though one of them is no more. Where they were not, the
    // record is aborted.
    [[gnu::noinline, gnu::cold]] static bool were_frozen(Shared* words) {
        if (words[ALL_FROZEN].load()) return true;
        words[STATE].store(ABORTED);
        return false;
    }

    // HELP of whatever record.
    [[gnu::noinline]] static bool help(Table table, Word record) {
        Shared* const words = table.scx(record);
        const Plan plan(words[PLAN].load());
        Node nodes[4];
        for (Word index = 0; index < plan.count(); index++) {
            nodes[index] = table.node(words[NODES + index].load());
            const Word seen = words[INFOS + index].load();
            const Word found = compare_exchange(nodes[index].words[INFO], seen, record);
            if (found != seen && found != record) return were_frozen(words);
        }
        words[ALL_FROZEN].store(1);
        for (Word index = 0; index < plan.count(); index++)
            if (plan.removes(index)) nodes[index].store(MARKED, 1);
        const Word fresh = words[NEW].load();
        const Word old = words[OLD].load();
        compare_exchange(nodes[plan.at()].words[plan.field()], old, fresh);
        words[STATE].store(COMMITTED);
        return true;
    }

    // What LLX does behind its first loads where something was in the way.
    [[gnu::noinline, gnu::cold]] static bool is_finalized(Table table, Shared* node, Word marked, Word info) {
        const Word state = table.scx(info)[STATE].load();
        const bool committed = state == COMMITTED || (state == IN_PROGRESS && help(table, info));
        if (marked && committed) return true;
        const Word now = node[INFO].load();
        if (table.scx(now)[STATE].load() == IN_PROGRESS) help(table, now);
        return false;
    }
};

template <Word NODE_SIZE>
class Forest {
public:
    // Nodes 0 to `opening` - 1 are there from the start, beside the shares of the passes.
    Forest(Word opening, Word passes, Word share = SHARE) : first_node_(opening) {
        const Word nodes = NODE_SIZE * (opening + passes * share);
        const Word size = nodes + SCX_WORDS * (FIRST_SCX + passes * share);
        words_.reset(new Shared[size]);
        for (Word at = 0; at < size; at++) words_[at].store(0, std::memory_order_relaxed);
        table_ = {&words_[0], &words_[nodes]};
        table_.scx(0)[STATE].store(ABORTED);
    }

    const Table<NODE_SIZE>& table() const { return table_; }

    Pass pass(Word number) const {
        return {number, first_node_ + number * SHARE, SHARE, FIRST_SCX + number * SHARE, SHARE};
    }

private:
    Word first_node_;
    std::unique_ptr<Shared[]> words_;
    Table<NODE_SIZE> table_;
};
