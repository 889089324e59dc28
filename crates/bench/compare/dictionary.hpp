// A dictionary on a tree or a trie: get, insert, insert_new, remove, remove_if, pop_first, pop_last,
// replace_if, successor, predecessor, range.
#pragma once
#include <algorithm>
#include <optional>
#include <vector>

#include "bits.hpp"
#include "forest.hpp"
#include "list.hpp"

using Value = unsigned __int128;

struct Pair {
    Word key;
    Value value;
};

// The pairs of a leaf, by rising key, with room for one more than a leaf may hold.
struct Pairs {
    static constexpr Word MOST = 4;

    Word count;
    Pair items[MOST + 1];
};

// The head of a node says how deep it stands, whether it is a leaf, and its class: 0 for keys, 1 and 2
// for what stands above all keys.
struct Head {
    Word word;

    Head() = default;
    constexpr Head(Word level, bool leaf, Word class_) : word(8 * level + 4 * leaf + class_) {}
    explicit Head(Word found) : word(found) {}
    Word level() const { return word / 8; }
    bool leaf() const { return word & 4; }
    bool keyed() const { return !(word & 3); }
    // Whether it is that of a fork between keys.
    bool parts() const { return !(word & 7); }
    Word class_() const { return word & 3; }
};

// What a walk ends with: the leaf, the two forks above it with the sides to which it went there, how many
// pairs the leaf has behind its first, the place of the first pair whose key is not below the one that is
// looked for, and the value, where that is the key. In its place may be a fork that the key does not share,
// and `strays` that one's key; else it is 0, which no fork of a trie has.
struct Found {
    Word grand = 0, parent = 0;
    Node leaf;
    Side grand_side = LEFT_SIDE, side = LEFT_SIDE;
    Head head;
    Word more = 0, index = 0;
    Pair pair;
    bool has = false;
    Word strays = 0;

    // Whether a key that is not there goes into one more leaf beside this one.
    bool full() const { return !head.keyed() || (!has && more + 1 == Pairs::MOST); }

    // How many nodes the edit takes that gives the key a value.
    Word need() const { return strays ? 2 : full() ? 3 : 1; }
};

enum class End { done, contended, full, no_memory };

template <class T>
struct Reply {
    End end;
    T told;
};

// What parts the keys below forks: in a tree the order in which they came, in a trie their bits.
enum class Parting { order, bits };

// How many words a node takes: in a trie three lines of the cache.
constexpr Word node_size(Parting parting) { return parting == Parting::bits ? 24 : Word(NODE_WORDS); }

// The nodes from node 3 on of a map that begins with pairs: each behind what stands below it, and as the last
// a fork above all keys.
template <Parting PARTING>
struct Planting {
    static constexpr bool BY_BITS = PARTING == Parting::bits;
    using Table = ::Table<node_size(PARTING)>;

    const Pair* first;
    const Pair* last;

    Planting(const Pair* first, const Pair* last) : first(first), last(last) {}

    Word nodes() const { return first == last ? 0 : 1 + nodes_over(first, last); }

    // Fills them, and answers the number of the last.
    Word fill(Table table) const {
        Word next = 3;
        const Word top = grow(table, next, first, last, 2);
        return fork(table, next, 1, 1, 0, top, 1);
    }

private:
    // Where the pairs are parted: in halves, the first of full leaves, or at a bit.
    static const Pair* middle(const Pair* first, const Pair* last) {
        if (!BY_BITS) return first + 4 * ((Word(last - first + 3) / 4 + 1) / 2);
        const ForkBetween between(first->key, last[-1].key);
        return std::partition_point(first, last, [&](const Pair& pair) { return pair.key < between.key; });
    }

    static Word nodes_over(const Pair* first, const Pair* last) {
        if (Word(last - first) <= Pairs::MOST) return 1;
        if (!BY_BITS) return 2 * (Word(last - first + 3) / 4) - 1;
        const Pair* const half = middle(first, last);
        return 1 + nodes_over(first, half) + nodes_over(half, last);
    }

    static Word grow(Table table, Word& next, const Pair* first, const Pair* last, Word level) {
        if (Word(last - first) <= Pairs::MOST) return leaf(table, next, first, last, BY_BITS ? LEVEL_OF_LEAVES : level);
        const Pair* const half = middle(first, last);
        Word key = half->key;
        if (BY_BITS) {
            const ForkBetween between(first->key, last[-1].key);
            level = between.level;
            key = between.key;
        }
        const Word left = grow(table, next, first, half, level + 1);
        const Word right = grow(table, next, half, last, level + 1);
        return fork(table, next, level, 0, key, left, right);
    }

    static Word leaf(Table table, Word& next, const Pair* first, const Pair* last, Word level) {
        const Node node = table.node(next++);
        node.plant(HEAD, Head(level, true, 0).word);
        node.plant(MORE, last - first - 1);
        for (Word index = 0; first + index < last; index++) {
            node.plant(index == 0 ? KEY : KEY1 - 2 + 2 * index, first[index].key);
            node.plant(index == 0 ? VALUE : VALUE1 - 2 + 2 * index, Word(first[index].value));
            node.plant(HIGH + index, Word(first[index].value >> 64));
        }
        return node.number;
    }

    static Word fork(Table table, Word& next, Word level, Word class_, Word key, Word left, Word right) {
        const Node node = table.node(next++);
        node.plant(HEAD, Head(level, false, class_).word);
        node.plant(KEY, key);
        node.plant(LEFT, left);
        node.plant(RIGHT, right);
        return node.number;
    }
};

template <Parting PARTING>
class Dictionary {
public:
    static constexpr Word OPENING = 3;
    static constexpr Word NODE_SIZE = node_size(PARTING);

    // As many pairs as a range has room for from the start.
    using RangeRoom = Room<Pair, 64>;

    Dictionary(Word passes, Word tries) : forest_(OPENING, passes), tries_(tries) { open(1, 1); }

    // One that begins with these pairs, in rising order of keys, and whose passes have no share.
    explicit Dictionary(const std::vector<Pair>& pairs)
        : Dictionary(Planting<PARTING>(pairs.data(), pairs.data() + pairs.size())) {}

    Pass pass(Word number) const { return forest_.pass(number); }

    // The calls are not inlined into the loops of the works, as in `bench`.
    [[gnu::noinline]] std::optional<Value> get(Word key) const {
        const Found found = walk(forest_.table(), key);
        if (!found.has) return std::nullopt;
        return found.pair.value;
    }

    [[gnu::noinline]] Reply<std::optional<Value>> insert(Pass& pass, Word key, Value value) const {
        return put_in<BY_BITS>(pass, key, value, [](const Found&) { return true; });
    }

    [[gnu::noinline]] Reply<std::optional<Value>> insert_new(Pass& pass, Word key, Value value) const {
        return put_in<BY_BITS>(pass, key, value, [](const Found& found) { return !found.has; });
    }

    [[gnu::noinline]] Reply<std::optional<Value>> replace_if(Pass& pass, Word key, Value expected, Value value) const {
        return put_in<false>(pass, key, value,
                             [=](const Found& found) { return found.has && found.pair.value == expected; });
    }

    [[gnu::noinline]] Reply<std::optional<Value>> remove(Pass& pass, Word key) const {
        return take_out(pass, key, [](const Found& found) { return found.has; });
    }

    [[gnu::noinline]] Reply<std::optional<Value>> remove_if(Pass& pass, Word key, Value expected) const {
        return take_out(pass, key, [=](const Found& found) { return found.has && found.pair.value == expected; });
    }

    [[gnu::noinline]] Reply<std::optional<Pair>> pop_first(Pass& pass) const { return pop<LEFT_SIDE>(pass); }

    [[gnu::noinline]] Reply<std::optional<Pair>> pop_last(Pass& pass) const { return pop<RIGHT_SIDE>(pass); }

    [[gnu::noinline]] Reply<std::optional<Pair>> successor(Word key) const { return neighbour<RIGHT_SIDE>(key); }

    [[gnu::noinline]] Reply<std::optional<Pair>> predecessor(Word key) const { return neighbour<LEFT_SIDE>(key); }

    // The first pairs by key of those with keys from `low` to `high`, `most` at most, in this room.
    [[gnu::noinline]] Reply<List<Pair>> range(Word low, Word high, Word most, RangeRoom& room) const {
        List<Pair> taken(room);
        if (most == 0 || high < low) return {End::done, std::move(taken)};
        const Table table = forest_.table();
        LooksRoom looks_room;
        WaitingRoom waiting_room;
        List<Look> looks(looks_room);
        List<Word> waiting(waiting_room);
        for (Word tried = 0; tried < tries_; tried++) {
            looks.clear();
            waiting.clear();
            taken.clear();
            if (visit(table, low, high, most, looks, waiting, taken) && same(looks)) return {End::done, std::move(taken)};
        }
        taken.clear();
        return {End::contended, std::move(taken)};
    }

private:
    using Table = ::Table<NODE_SIZE>;

    static constexpr bool BY_BITS = PARTING == Parting::bits;

    explicit Dictionary(const Planting<PARTING>& planting)
        : forest_(OPENING + rounded(planting.nodes()), 1, 0), tries_(1) {
        if (planting.first == planting.last) open(1, 1);
        else open(planting.fill(forest_.table()), 2);
    }

    // A table has room for up to 31 nodes more than are planted.
    static Word rounded(Word nodes) { return (nodes + 31) / 32 * 32; }

    // The root over this node and node 2, and node 1 on this level.
    void open(Word left, Word level) {
        const Table& table = forest_.table();
        table.node(0).store(HEAD, Head(0, false, 2).word);
        table.node(0).store(LEFT, left);
        table.node(0).store(RIGHT, 2);
        table.node(1).store(HEAD, Head(level, true, 1).word);
        table.node(2).store(HEAD, Head(1, true, 2).word);
    }

    // The node that a pop of a trie covers, and each edit that puts a fork above another: what is first or
    // last in the trie stays so while no such edit is made.
    static constexpr Word ORDER = 2;

    // What a VLX asks of a node that was looked at: whether its info is still this.
    struct Look {
        Shared* info;
        Word scx;

        explicit Look(const Snap& snap) : info(&snap.node.words[INFO]), scx(snap.scx) {}
    };

    using LooksRoom = Room<Look, 96>;
    using WaitingRoom = Room<Word, 64>;

    // The words of the pair at a place of a leaf.
    static Word key_word(Word index) { return index == 0 ? Word(KEY) : KEY1 + 2 * (index - 1); }
    static Word value_word(Word index) { return index == 0 ? Word(VALUE) : VALUE1 + 2 * (index - 1); }

    static Value value_at(Node leaf, Word index) {
        const Word low = leaf.load(value_word(index));
        const Word high = leaf.load(HIGH + index);
        return Value(high) << 64 | low;
    }

    static Pair pair_at(Node leaf, Word index) {
        const Word key = leaf.load(key_word(index));
        return {key, value_at(leaf, index)};
    }

    static Reply<std::optional<Value>> told(const Found& found) {
        if (!found.has) return {End::done, std::nullopt};
        return {End::done, found.pair.value};
    }

    // Where the path of a key goes at a fork.
    static Side toward(Node fork, Head head, Word key) {
        return head.parts() && key >= fork.load(KEY) ? RIGHT_SIDE : LEFT_SIDE;
    }

    // Goes one node down.
    static void follow(Found& found, Table table, Side side) {
        const Word child = found.leaf.load(LEFT + side);
        found.grand = found.parent;
        found.grand_side = found.side;
        found.parent = found.leaf.number;
        found.side = side;
        found.leaf = table.node(child);
        found.head = Head(found.leaf.load(HEAD));
    }

    // The walk to the leaf of a key, or, where that `ends` it, to the first fork that the key does not share.
    template <bool ENDS = false>
    [[gnu::always_inline]] static Found walk(Table table, Word key) {
        Found found;
        Node node = table.node(0);
        Word grand = 0, parent = 0;
        Side grand_side = LEFT_SIDE, side = LEFT_SIDE;
        Head head;
        for (;;) {
            head = Head(node.load(HEAD));
            Side to = LEFT_SIDE;
            if (head.parts()) {
                const Word fork = node.load(KEY);
                if (ENDS && !shares(fork, key)) {
                    found.strays = fork;
                    break;
                }
                if (key >= fork) to = RIGHT_SIDE;
            } else if (head.leaf()) break;
            grand = parent;
            grand_side = side;
            parent = node.number;
            side = to;
            node = table.node(node.load(LEFT + to));
        }
        found.grand = grand;
        found.parent = parent;
        found.leaf = node;
        found.grand_side = grand_side;
        found.side = side;
        found.head = head;
        if (!found.strays && head.keyed()) find(found, key);
        return found;
    }

    // Looks for a key in a leaf of class 0.
    [[gnu::always_inline]] static void find(Found& found, Word key) {
        found.more = found.leaf.load(MORE);
        found.pair.key = found.leaf.load(KEY);
        while (found.pair.key < key) {
            if (found.index++ == found.more) return;
            found.pair.key = found.leaf.load(KEY1 - 2 + 2 * found.index);
        }
        found.has = found.pair.key == key;
        if (found.has) found.pair.value = value_at(found.leaf, found.index);
    }

    // The walk to the leaf of the least or of the greatest key, which reads no key on its way. In a trie it
    // looks at the node of the order behind its first step. False where the try is lost.
    template <Side END>
    [[gnu::always_inline]] static bool walk_to(Table table, Found& found, Snap& order) {
        found.leaf = table.node(0);
        found.head = Head(found.leaf.load(HEAD));
        if (BY_BITS && !look(table, table.node(ORDER), order)) return false;
        for (;;) {
            // A loop of its own for the forks of class 0, where the side is known.
            while (END == RIGHT_SIDE && found.head.parts()) follow(found, table, END);
            if (found.head.leaf()) break;
            follow(found, table, LEFT_SIDE);
        }
        found.has = found.head.keyed();
        if (!found.has) return true;
        found.more = found.leaf.load(MORE);
        found.index = END == LEFT_SIDE ? 0 : found.more;
        found.pair = pair_at(found.leaf, found.index);
        return true;
    }

    // Puts a pair in where `wants` says so of what the walk found.
    template <bool ENDS, class Wants>
    [[gnu::always_inline]] Reply<std::optional<Value>> put_in(Pass& pass, Word key, Value value, Wants wants) const {
        const Table table = forest_.table();
        const Word call = pass.taken();
        for (Word tried = 0; tried < tries_; tried++) {
            const Found found = walk<ENDS>(table, key);
            if (!wants(found)) return told(found);
            if (pass.nodes < found.need() || pass.scx == 0) return {End::full, {}};
            const bool done = found.strays ? put_above(table, pass, found, call, key, value)
                                           : put(table, pass, found, call, key, value);
            if (done) return told(found);
        }
        return {End::contended, {}};
    }

    // Takes the pair of a key out where `wants` says so of what the walk found.
    template <class Wants>
    [[gnu::always_inline]] Reply<std::optional<Value>> take_out(Pass& pass, Word key, Wants wants) const {
        const Table table = forest_.table();
        const Word call = pass.taken();
        for (Word tried = 0; tried < tries_; tried++) {
            const Found found = walk(table, key);
            if (!wants(found)) return told(found);
            if (pass.nodes < 1 || pass.scx == 0) return {End::full, {}};
            if (taken_out(table, pass, found, call)) return told(found);
        }
        return {End::contended, {}};
    }

    // Takes the pair with the least or with the greatest key out.
    template <Side END>
    [[gnu::always_inline]] Reply<std::optional<Pair>> pop(Pass& pass) const {
        const Table table = forest_.table();
        const Word call = pass.taken();
        for (Word tried = 0; tried < tries_; tried++) {
            Found found;
            Snap order;
            if (!walk_to<END>(table, found, order)) continue;
            if (!found.has) return {End::done, std::nullopt};
            if (pass.nodes < 1 || pass.scx == 0) return {End::full, {}};
            if (popped(table, pass, found, call, order)) return {End::done, found.pair};
        }
        return {End::contended, {}};
    }

    // A snapshot of a node that has this child. False where the try is lost.
    [[gnu::always_inline]] static bool look(Table table, Word number, Side side, Word child, Snap& snap) {
        return table.llx(table.node(number), snap) == LlxEnd::snapshot && snap.child(side) == child;
    }

    [[gnu::always_inline]] static bool look(Table table, Node node, Snap& snap) {
        return table.llx(node, snap) == LlxEnd::snapshot;
    }

    // Puts a pair into the place of the leaf. False where the try is lost.
    [[gnu::always_inline]] static bool put(Table table, Pass& pass, const Found& found, Word call, Word key,
                                           Value value) {
        std::array<Snap, 2> snaps;
        auto& [parent, leaf] = snaps;
        if (!look(table, found.parent, found.side, found.leaf.number, parent)) return false;
        if (!look(table, found.leaf, leaf)) return false;
        const Word fresh = grown(table, pass, found, {key, value});
        return table.template put<0b10>(pass.record(), snaps, found.side, fresh, found.leaf.number, call);
    }

    // Puts a fork that the key shares above the one at which the walk has ended. False where the try is lost.
    [[gnu::always_inline]] static bool put_above(Table table, Pass& pass, const Found& found, Word call, Word key,
                                                 Value value) {
        std::array<Snap, 2> snaps;
        auto& [parent, order] = snaps;
        if (!look(table, found.parent, found.side, found.leaf.number, parent)) return false;
        if (!look(table, table.node(ORDER), order)) return false;
        const Word fresh = fork_above(table, pass, found, {key, value});
        return table.template put<0>(pass.record(), snaps, found.side, fresh, found.leaf.number, call);
    }

    // Takes the key out of its leaf, or the leaf out of the tree that has this key alone. False where the try
    // is lost.
    [[gnu::always_inline]] static bool taken_out(Table table, Pass& pass, const Found& found, Word call) {
        if (found.more == 0) return unlink(table, pass, found, call);
        std::array<Snap, 2> snaps;
        auto& [parent, leaf] = snaps;
        if (!look(table, found.parent, found.side, found.leaf.number, parent)) return false;
        if (!look(table, found.leaf, leaf)) return false;
        const Word fresh = shrunk(table, pass, found);
        return table.template put<0b10>(pass.record(), snaps, found.side, fresh, found.leaf.number, call);
    }

    // Puts a copy of the leaf's sibling in the place of their parent. False where the try is lost.
    [[gnu::always_inline]] static bool unlink(Table table, Pass& pass, const Found& found, Word call) {
        std::array<Snap, 4> snaps;
        auto& [grand, parent, left, right] = snaps;
        if (!look(table, found.grand, found.grand_side, found.parent, grand)) return false;
        if (!look(table, found.parent, found.side, found.leaf.number, parent)) return false;
        if (!look(table, table.node(parent.left), left)) return false;
        if (!look(table, table.node(parent.right), right)) return false;
        const Word fresh = copy(table, pass, found.side == LEFT_SIDE ? right : left);
        return table.template put<0b1110>(pass.record(), snaps, found.grand_side, fresh, found.parent, call);
    }

    // Takes the first or the last pair out, which in a trie covers the node of the order too, as the last.
    // False where the try is lost.
    [[gnu::always_inline]] static bool popped(Table table, Pass& pass, const Found& found, Word call,
                                              const Snap& order) {
        if (!BY_BITS) return taken_out(table, pass, found, call);
        if (found.more == 0) return unlink_end(table, pass, found, call, order);
        std::array<Snap, 3> snaps;
        auto& [parent, leaf, last] = snaps;
        last = order;
        if (!look(table, found.parent, found.side, found.leaf.number, parent)) return false;
        if (!look(table, found.leaf, leaf)) return false;
        const Word fresh = shrunk(table, pass, found);
        return table.template put<0b010>(pass.record(), snaps, found.side, fresh, found.leaf.number, call);
    }

    // The same by a copy of the leaf's sibling, in whose stead the leaf is not covered.
    [[gnu::always_inline]] static bool unlink_end(Table table, Pass& pass, const Found& found, Word call,
                                                  const Snap& order) {
        std::array<Snap, 4> snaps;
        auto& [grand, parent, sibling, last] = snaps;
        last = order;
        if (!look(table, found.grand, found.grand_side, found.parent, grand)) return false;
        if (!look(table, found.parent, found.side, found.leaf.number, parent)) return false;
        const Word beside = found.side == LEFT_SIDE ? parent.right : parent.left;
        if (!look(table, table.node(beside), sibling)) return false;
        const Word fresh = copy(table, pass, sibling);
        return table.template put<0b0110>(pass.record(), snaps, found.grand_side, fresh, found.parent, call);
    }

    // A leaf above all keys.
    static Word high_leaf(Table table, Pass& pass, Word level, Word class_) {
        const Node node = table.node(pass.fresh());
        node.store(HEAD, Head(level, true, class_).word);
        node.store(KEY, 0);
        node.store(VALUE, 0);
        return node.number;
    }

    // A leaf of the pairs from one place to before another. What is 0 in a fresh node is left as it is.
    [[gnu::always_inline]] static Word low_leaf(Table table, Pass& pass, Word level, const Pairs& pairs, Word from,
                                                Word to) {
        const Node node = table.node(pass.fresh());
        const Pair* const items = pairs.items + from;
        const Word more = to - from - 1;
        node.store(HEAD, Head(level, true, 0).word);
        if (more > 0) node.store(MORE, more);
#pragma GCC unroll 4
        for (Word index = 0; index < Pairs::MOST; index++) {
            if (index > more) break;
            node.store(key_word(index), items[index].key);
            node.store(value_word(index), Word(items[index].value));
            if (const Word high = Word(items[index].value >> 64)) node.store(HIGH + index, high);
        }
        return node.number;
    }

    [[gnu::always_inline]] static Word lone_leaf(Table table, Pass& pass, Word level, const Pair& pair) {
        Pairs one;
        one.items[0] = pair;
        return low_leaf(table, pass, level, one, 0, 1);
    }

    static Word fork(Table table, Pass& pass, Word level, Word class_, Word key, Word left, Word right) {
        const Node node = table.node(pass.fresh());
        node.store(HEAD, Head(level, false, class_).word);
        node.store(KEY, key);
        node.store(LEFT, left);
        node.store(RIGHT, right);
        return node.number;
    }

    // Loads all pairs of a leaf. What stands behind the place of the walk's key comes one place later where
    // the key is not there, so that there is room for it, and its own pair is left out where it is.
    [[gnu::always_inline]] static void load_around(Pairs& pairs, const Found& found) {
        Pair* to = pairs.items;
#pragma GCC unroll 4
        for (Word index = 0; index < Pairs::MOST; index++) {
            if (index > found.more) break;
            if (index == found.index) to += found.has ? 0 : 1;
            *to = pair_at(found.leaf, index);
            to += index == found.index && found.has ? 0 : 1;
        }
    }

    // What stands in the place of a leaf once its key is out: a leaf of the others.
    [[gnu::always_inline]] static Word shrunk(Table table, Pass& pass, const Found& found) {
        Pairs pairs;
        load_around(pairs, found);
        return low_leaf(table, pass, found.head.level(), pairs, 0, found.more);
    }

    // What stands in the place of a leaf once it has the pair too: a leaf, or a fork over two.
    [[gnu::always_inline]] static Word grown(Table table, Pass& pass, const Found& found, const Pair& pair) {
        const Word level = found.head.level();
        if (!found.head.keyed()) return first_pair(table, pass, found.head, pair);
        Pairs pairs;
        load_with(pairs, found, pair);
        if (pairs.count <= Pairs::MOST) return low_leaf(table, pass, level, pairs, 0, pairs.count);
        return BY_BITS ? part(table, pass, pairs) : split(table, pass, level, pairs);
    }

    // All pairs of a leaf, and this one at the place of its key.
    [[gnu::always_inline]] static void load_with(Pairs& pairs, const Found& found, const Pair& pair) {
        Pair* to = pairs.items;
#pragma GCC unroll 4
        for (Word index = 0; index < Pairs::MOST; index++) {
            if (index > found.more) break;
            if (index == found.index && !found.has) to++;
            *to++ = pair_at(found.leaf, index);
        }
        pairs.items[found.index] = pair;
        pairs.count = found.more + 1 + !found.has;
    }

    // In a trie, two leaves in the place of one, parted at a bit.
    [[gnu::noinline]] static Word part(Table table, Pass& pass, const Pairs& pairs) {
        const ForkBetween between(pairs.items[0].key, pairs.items[4].key);
        if (between.key <= pairs.items[1].key) return parted<1>(table, pass, pairs, between);
        if (between.key <= pairs.items[2].key) return parted<2>(table, pass, pairs, between);
        if (between.key <= pairs.items[3].key) return parted<3>(table, pass, pairs, between);
        return parted<4>(table, pass, pairs, between);
    }

    // The first so many pairs are left of the fork.
    template <Word COUNT>
    [[gnu::always_inline]] static Word parted(Table table, Pass& pass, const Pairs& pairs, ForkBetween between) {
        const Word first = low_leaf(table, pass, LEVEL_OF_LEAVES, pairs, 0, COUNT);
        const Word second = low_leaf(table, pass, LEVEL_OF_LEAVES, pairs, COUNT, 5);
        return fork(table, pass, between.level, 0, between.key, first, second);
    }

    // A fork over the one at which the walk has ended and a leaf of this pair.
    [[gnu::always_inline]] static Word fork_above(Table table, Pass& pass, const Found& found, const Pair& pair) {
        const bool below = pair.key < found.strays;
        const ForkBetween between(below ? pair.key : found.strays, below ? found.strays : pair.key);
        const Word leaf = lone_leaf(table, pass, LEVEL_OF_LEAVES, pair);
        const Word left = below ? leaf : found.leaf.number;
        const Word right = below ? found.leaf.number : leaf;
        return fork(table, pass, between.level, 0, between.key, left, right);
    }

    // In a tree, two leaves in the place of one.
    [[gnu::noinline]] static Word split(Table table, Pass& pass, Word level, const Pairs& pairs) {
        const Word first = low_leaf(table, pass, level + 1, pairs, 0, 2);
        const Word second = low_leaf(table, pass, level + 1, pairs, 2, 5);
        return fork(table, pass, level, 0, pairs.items[2].key, first, second);
    }

    // A fork over a leaf of this pair and one that is above all keys.
    [[gnu::noinline, gnu::cold]] static Word first_pair(Table table, Pass& pass, Head head, const Pair& pair) {
        const Word level = BY_BITS ? 1 : head.level();
        const Word first = lone_leaf(table, pass, BY_BITS ? LEVEL_OF_LEAVES : level + 1, pair);
        const Word second = high_leaf(table, pass, level + 1, head.class_());
        return fork(table, pass, level, head.class_(), 0, first, second);
    }

    // A copy of the sibling of a leaf that is removed.
    [[gnu::noinline]] static Word copy(Table table, Pass& pass, const Snap& sibling) {
        const Head head(sibling.node.load(HEAD));
        if (!head.leaf()) {
            const Word key = head.keyed() ? sibling.node.load(KEY) : 0;
            return fork(table, pass, head.level(), head.class_(), key, sibling.left, sibling.right);
        }
        if (!head.keyed()) return high_leaf(table, pass, head.level(), head.class_());
        Pairs pairs;
        const Word more = sibling.node.load(MORE);
        for (Word index = 0; index <= more; index++) pairs.items[index] = pair_at(sibling.node, index);
        return low_leaf(table, pass, head.level(), pairs, 0, more + 1);
    }

    // Whether all nodes are still as they were found.
    [[gnu::always_inline]] static bool same(const List<Look>& looks) {
        for (const Look& look : looks)
            if (look.info->load() != look.scx) return false;
        return true;
    }

    // The pair that is next to a key on a side.
    template <Side SIDE>
    [[gnu::always_inline]] Reply<std::optional<Pair>> neighbour(Word key) const {
        const Table table = forest_.table();
        LooksRoom room;
        List<Look> looks(room);
        for (Word tried = 0; tried < tries_; tried++) {
            looks.clear();
            std::optional<Pair> found;
            if (search<SIDE>(table, key, looks, found) && same(looks)) return {End::done, found};
        }
        return {End::contended, {}};
    }

    // What the walk of a key has found: the last fork at which it turns away from a side, in a trie of those that the
    // key shares, or the root where it never does; the leaf where it ends, and whether that may be asked for what is
    // next to the key: in a trie, where it is of class 0 and the key shares the fork above it.
    struct Walked {
        Node turn, leaf;
        Word more = 0;
        bool asks = false;
    };

    template <Side SIDE>
    [[gnu::always_inline]] static Walked walk_by_turns(Table table, Word key) {
        Walked walked;
        walked.turn = table.node(0);
        Found found;
        found.leaf = walked.turn;
        bool counts = true;
        for (;;) {
            found.head = Head(found.leaf.load(HEAD));
            Side side = LEFT_SIDE;
            if (found.head.parts()) {
                const Word fork = found.leaf.load(KEY);
                if (key >= fork) side = RIGHT_SIDE;
                counts = !BY_BITS || shares(fork, key);
            } else if (found.head.leaf()) break;
            else counts = true;
            if (side != SIDE && counts) walked.turn = found.leaf;
            found.leaf = table.node(found.leaf.load(LEFT + side));
        }
        if (!found.head.keyed()) return walked;
        find(found, key);
        walked.leaf = found.leaf;
        walked.more = found.more;
        walked.asks = BY_BITS && counts;
        return walked;
    }

    // The pair that is next to a key on a side in the key's own leaf of class 0, which has so many pairs after its
    // first.
    template <Side SIDE>
    [[gnu::always_inline]] static std::optional<Pair> next_among(Node leaf, Word key, Word more) {
        Word here = leaf.load(KEY), last = 0, index = 0;
        while (SIDE == RIGHT_SIDE ? here <= key : here < key) {
            last = here;
            if (index++ == more) break;
            here = leaf.load(KEY1 - 2 + 2 * index);
        }
        if (SIDE == LEFT_SIDE && index == 0) return std::nullopt;
        if (SIDE == LEFT_SIDE) return Pair{last, value_at(leaf, index - 1)};
        if (index > more) return std::nullopt;
        return Pair{here, value_at(leaf, index)};
    }

    // The same of a leaf of class 0, whose count is loaded; of a leaf that is not the key's own the nearest.
    template <Side SIDE>
    [[gnu::always_inline]] static std::optional<Pair> next_in(Node leaf, Word key, bool own) {
        const Word more = own || SIDE == LEFT_SIDE ? leaf.load(MORE) : 0;
        if (!own) return pair_at(leaf, SIDE == RIGHT_SIDE ? 0 : more);
        return next_among<SIDE>(leaf, key, more);
    }

    // One try of a successor, or on the left of a predecessor, but for the VLX. False where it is lost. In a trie the
    // leaf where its walk ends may have the pair; then there is nothing to be validated.
    template <Side SIDE>
    [[gnu::always_inline]] static bool search(Table table, Word key, List<Look>& looks, std::optional<Pair>& found) {
        constexpr Side AWAY = SIDE == LEFT_SIDE ? RIGHT_SIDE : LEFT_SIDE;
        const Walked walked = walk_by_turns<SIDE>(table, key);
        if (walked.asks) {
            found = next_among<SIDE>(walked.leaf, key, walked.more);
            if (found) return true;
        }
        Node node = walked.turn;
        Word beside = 0;
        Side side = node.number == 0 ? LEFT_SIDE : AWAY;
        Head head;
        for (;;) {
            Snap snap;
            if (table.llx(node, snap) != LlxEnd::snapshot) return false;
            looks.push(Look(snap));
            if (side == AWAY) beside = snap.child(SIDE);
            node = table.node(snap.child(side));
            head = Head(node.load(HEAD));
            if (head.leaf()) break;
            side = toward(node, head, key);
        }
        if (!head.keyed()) return true;
        found = next_in<SIDE>(node, key, true);
        if (found || beside == 0) return true;
        return search_beside<SIDE>(table, table.node(beside), key, looks, found);
    }

    // The pair that is nearest to the key below a node that is beside its path.
    template <Side SIDE>
    [[gnu::always_inline]] static bool search_beside(Table table, Node node, Word key, List<Look>& looks,
                                                     std::optional<Pair>& found) {
        constexpr Side AWAY = SIDE == LEFT_SIDE ? RIGHT_SIDE : LEFT_SIDE;
        for (;;) {
            const Head head(node.load(HEAD));
            if (head.leaf()) {
                if (head.keyed()) found = next_in<SIDE>(node, key, false);
                return true;
            }
            Snap snap;
            if (table.llx(node, snap) != LlxEnd::snapshot) return false;
            looks.push(Look(snap));
            node = table.node(snap.child(AWAY));
        }
    }

    // Takes what lies between the bounds in a leaf, up to so many. How many more could be taken is told.
    [[gnu::always_inline]] static Word take(Node leaf, Word low, Word high, Word most, List<Pair>& taken) {
        const Word more = leaf.load(MORE);
#pragma GCC unroll 4
        for (Word index = 0; index < Pairs::MOST; index++) {
            if (index > more) break;
            const Word key = leaf.load(key_word(index));
            if (low > key || key > high) continue;
            taken.push({key, value_at(leaf, index)});
            if (--most == 0) break;
        }
        return most;
    }

    // One try of a range, but for the VLX. False where it is lost.
    [[gnu::always_inline]] static bool visit(Table table, Word low, Word high, Word most, List<Look>& looks,
                                             List<Word>& waiting, List<Pair>& taken) {
        Word leaves = most + 2;
        for (Word number = 0;;) {
            const Node node = table.node(number);
            const Head head(node.load(HEAD));
            if (!head.leaf()) {
                const Word key = head.keyed() ? node.load(KEY) : 0;
                const bool left = !head.keyed() || low < key;
                const bool right = head.keyed() && key <= high;
                Snap snap;
                if (table.llx(node, snap) != LlxEnd::snapshot) return false;
                looks.push(Look(snap));
                if (left && right) waiting.push(snap.right);
                number = left ? snap.left : snap.right;
                continue;
            }
            if (head.keyed()) most = take(node, low, high, most, taken);
            if (most == 0 || --leaves == 0 || waiting.empty()) return true;
            number = waiting.pop();
        }
    }

    Forest<NODE_SIZE> forest_;
    Word tries_;
};

using Tree = Dictionary<Parting::order>;
using Trie = Dictionary<Parting::bits>;
