// The dictionary of regnubas.h in C++17: passes that leave by themselves, optionals, and a
// range-for over the pairs between two keys. Header only; calls mean what regnubas.h says of them.
//
// A call that is refused has changed nothing, but a `close` for want of memory ends the dictionary,
// and of a `renew` the pairs are left.
// It throws `regnubas::refused`, which says why; the call with `try_` before its name answers a
// `regnubas::result` in place of that. Where C++ itself has no memory, any call that answers a
// vector throws `std::bad_alloc`. Compiled without exceptions, the program is aborted in place of
// each.
#ifndef REGNUBAS_HPP
#define REGNUBAS_HPP

#include "regnubas.h"

#include <algorithm>
#include <array>
#include <cstddef>
#include <cstdint>
#include <cstdlib>
#include <iterator>
#include <limits>
#include <optional>
#include <stdexcept>
#include <string>
#include <utility>
#include <vector>

namespace regnubas {

using key = std::uint64_t;

// A number of 128 bits: low + 2^64 * high. One of 64 bits converts to it.
struct value {
    std::uint64_t low = 0;
    std::uint64_t high = 0;

    constexpr value() = default;
    constexpr value(std::uint64_t low, std::uint64_t high = 0) : low(low), high(high) {}
};

constexpr bool operator==(value one, value other) { return one.low == other.low && one.high == other.high; }
constexpr bool operator!=(value one, value other) { return !(one == other); }

using pair = std::pair<key, value>;

// Why a call is refused.
enum class status : std::uint32_t {
    contended = REGNUBAS_CONTENDED, // other passes were in the way in each try: ask again
    full = REGNUBAS_FULL,           // too little is left of the pass's share: if the dictionary
                                    // lasts, rest and ask again, as at `again`; if not, ask by
                                    // another pass, or renew
    no_memory = REGNUBAS_NO_MEMORY, // an allocation was refused
    limits = REGNUBAS_LIMITS,       // a number is out of its range
    no_pass = REGNUBAS_NO_PASS,     // the pass is empty, was moved from, has left, was closed or is away
    shared = REGNUBAS_SHARED,       // other passes have not left
    order = REGNUBAS_ORDER,         // the keys of the pairs do not rise
    too_many = REGNUBAS_TOO_MANY    // there are more pairs than there is room for
};

inline const char *text_of(status why) {
    switch (why) {
    case status::contended: return "contended";
    case status::full:
        return "full: rest and ask again if the dictionary lasts; else use another pass, or renew";
    case status::no_memory: return "no memory";
    case status::limits: return "limits out of range";
    case status::no_pass: return "no pass";
    case status::shared: return "shared";
    case status::order: return "pairs out of order";
    case status::too_many: return "too many pairs";
    }
    return "unknown";
}

class refused : public std::runtime_error {
public:
    explicit refused(status why) : std::runtime_error(std::string("regnubas: ") + text_of(why)), why_(why) {}
    status why() const noexcept { return why_; }

private:
    status why_;
};

[[noreturn]] inline void refuse(status why) {
#ifdef __cpp_exceptions
    throw refused(why);
#else
    static_cast<void>(why);
    std::abort();
#endif
}

// Limits for this many changes by each pass, of which `new_keys` give a value to a key that has
// none. What they take is doubled, up to 32,768, since a try that is lost to another thread takes
// as much. If they take more than 32,768 by themselves, `make` refuses them. A call has 100 tries.
// For a dictionary that lasts write limits yourself, as `make_lasting` says.
inline regnubas_limits limits_for(std::uint32_t changes, std::uint32_t new_keys) {
    const auto with_lost_tries = [](std::uint64_t taken) {
        const std::uint64_t all = std::max(taken, std::min<std::uint64_t>(2 * taken, 32768));
        return static_cast<std::uint32_t>(std::min<std::uint64_t>(all, std::numeric_limits<std::uint32_t>::max()));
    };
    return {with_lost_tries(changes + 2 * std::uint64_t{new_keys}), with_lost_tries(changes), 100};
}

// What a dictionary is: a trie stays low also where keys come in order.
enum class shape { tree, trie };

// What a call tells, or why it was refused.
template <typename T> class result {
public:
    result(T told) : told_(std::move(told)) {}
    result(status why) : why_(why) {}

    explicit operator bool() const noexcept { return told_.has_value(); }
    status why() const noexcept { return why_; } // where it was refused

    // What it tells; throws `refused` where it tells nothing.
    T get() && {
        if (!told_) refuse(why_);
        return std::move(*told_);
    }
    const T &operator*() const noexcept { return *told_; }

private:
    std::optional<T> told_;
    status why_ = status::no_pass;
};

// Asks until other passes are not in the way: `again([&] { return pass.try_insert(5, 50); })`. It
// asks again after `contended` alone, at once, and never rests: `full` is answered, as is all else.
// So where the dictionary lasts, each thread may change the map by
//
//     // Sets a key, and asks as often as it takes. Throws `full` if the share is too small.
//     void set(regnubas::pass &own, regnubas::key k, regnubas::value v) {
//         for (int alone = 0;;) {
//             auto told = regnubas::again([&] { return own.try_insert(k, v); });
//             const bool full = !told && told.why() == regnubas::status::full;
//             if (!full || alone == 8) { // in a trie 8 + nodes / 64
//                 std::move(told).get();
//                 return;
//             }
//             if (own.rest()) {
//                 alone = 0;
//                 std::this_thread::yield(); // another pass is to go on
//             } else {
//                 alone++;
//             }
//         }
//     }
//
//     // Changes a key a million times, and rests after each ten. The pass leaves at the end.
//     void work(regnubas::pass own, regnubas::key k) {
//         for (std::uint64_t i = 1; i <= 1000000; i++) {
//             set(own, k, i);
//             if (i % 10 == 0) own.rest();
//         }
//     }
//
//     auto passes = regnubas::pass::make_lasting(2, {64, 64, 1}); // nodes, SCX-records, tries
//     std::thread one(work, std::move(passes[0]), 5), other(work, std::move(passes[1]), 6);
template <typename Call> auto again(Call call) -> decltype(call()) {
    for (;;) {
        auto told = call();
        if (told || told.why() != status::contended) return told;
    }
}

class between;

// What a thread needs to make calls; one call at a time. It leaves when it is destroyed.
class alignas(64) pass {
public:
    pass() = default;
    pass(pass &&other) noexcept
        : raw_(std::exchange(other.raw_, {})), room_(other.room_), shape_(other.shape_) {}
    pass &operator=(pass &&other) noexcept {
        if (this != &other) {
            leave();
            raw_ = std::exchange(other.raw_, {});
            room_ = other.room_;
            shape_ = other.shape_;
        }
        return *this;
    }
    ~pass() { leave(); }

    // A dictionary with so many passes, 1 to 32, each of which may take what `each` says: 0 to
    // 32,768 nodes and as many SCX-records. After so many lost tries, 1 to 1,000, a change or an
    // ordered read is `contended`. A try is lost where a change by another pass was in the way, and
    // may have taken as much as one that is done. `tries` has no effect on `get`, which reads
    // nothing twice, nor where the dictionary lasts.
    static result<std::vector<pass>> try_make(std::size_t count, regnubas_limits each, shape is = shape::tree) {
        return made(count, count * each.nodes, is, [=](regnubas_pass *raw) {
            return (is == shape::trie ? regnubas_make_trie : regnubas_make)(each, raw, count);
        });
    }
    static std::vector<pass> make(std::size_t count, regnubas_limits each, shape is = shape::tree) {
        return try_make(count, each, is).get();
    }

    // One that lasts: what its passes have used up comes back to them as they rest.
    //
    // `each` has the same ranges, but is of what is in use at a time: the nodes of the map that the
    // pass has made, the SCX-records of its changes that were the last at a node of the map, and
    // what has not come back yet, which is what it takes in four rests or more. So take ten times a
    // pass's part of the pairs, and no less than its calls take in four rests. With fewer than
    // three nodes no first key goes in. A call makes one try, whatever `tries` says.
    //
    // After `contended` ask again at once; after `full` rest, and ask again, as the loop at `again`
    // does. What is dead by then comes back in some four rests, if these wait for nobody; in a
    // trie, what pops leave may take one more for each 64 nodes of the share. `rest` says for which
    // pass it waits: until that one rests, goes away or leaves, nothing comes back. A call that
    // stays `full` while rests wait for nobody needs a larger share.
    //
    // It may have more pairs than there are nodes, since a leaf is one node and has up to four
    // pairs: `close` takes room for 2 * count * nodes pairs, 48 bytes each.
    //
    // The table takes, with n = 3 + count * nodes and s = 1 + count * scx, and with A and B, the
    // least powers of two above these, 8 * max(18 * A, 18 * n + 14 * B) bytes, or up to 2 KB more;
    // in a trie 24 for 18. That is 386 MB at most, in a trie 436 MB. While it is made it takes up
    // to three times that. Besides, a pass keeps a number and a byte for each of its nodes and
    // SCX-records. `close` takes 8 * (18 * n + 14 * s) bytes more.
    //
    // A pass can go round its share 2^28 times at least (2^20 is proved); then it stays `full`.
    static result<std::vector<pass>> try_make_lasting(std::size_t count, regnubas_limits each,
                                                      shape is = shape::tree) {
        return made(count, 2 * count * each.nodes, is, [=](regnubas_pass *raw) {
            return (is == shape::trie ? regnubas_make_lasting_trie : regnubas_make_lasting)(each, raw, count);
        });
    }
    static std::vector<pass> make_lasting(std::size_t count, regnubas_limits each, shape is = shape::tree) {
        return try_make_lasting(count, each, is).get();
    }

    // One that begins with the pairs from `first` on, each key above the one before: `pass::of_pairs(
    // map.begin(), map.end(), 4, limits)` of a `std::map<key, value>`. It is balanced, and takes
    // nothing of a pass's share.
    template <typename Iterator>
    static result<std::vector<pass>> try_of_pairs(Iterator first, Iterator last, std::size_t count,
                                                  regnubas_limits each, shape is = shape::tree) {
        std::vector<regnubas_pair> pairs;
        for (; first != last; ++first) pairs.push_back({first->first, raw_of(first->second)});
        return made(count, count * each.nodes + pairs.size(), is, [&](regnubas_pass *raw) {
            const regnubas_pair none = {};
            const auto make = is == shape::trie ? regnubas_make_trie_of_pairs : regnubas_make_of_pairs;
            return make(each, pairs.empty() ? &none : pairs.data(), pairs.size(), raw, count);
        });
    }
    template <typename Iterator>
    static std::vector<pass> of_pairs(Iterator first, Iterator last, std::size_t count, regnubas_limits each,
                                      shape is = shape::tree) {
        return try_of_pairs(first, last, count, each, is).get();
    }

    // The value of a key.
    std::optional<value> get(key k) {
        return value_of(regnubas_get(&raw_, k)).get();
    }
    bool contains(key k) { return get(k).has_value(); }

    // Sets a key; the value that it had.
    result<std::optional<value>> try_insert(key k, value v) { return value_of(regnubas_insert(&raw_, k, raw_of(v))); }
    std::optional<value> insert(key k, value v) { return try_insert(k, v).get(); }

    // Sets a key if it has no value; the value that it has otherwise.
    result<std::optional<value>> try_insert_new(key k, value v) {
        return value_of(regnubas_insert_new(&raw_, k, raw_of(v)));
    }
    std::optional<value> insert_new(key k, value v) { return try_insert_new(k, v).get(); }

    // Takes a key away; the value that it had.
    result<std::optional<value>> try_erase(key k) { return value_of(regnubas_delete(&raw_, k)); }
    std::optional<value> erase(key k) { return try_erase(k).get(); }

    // Takes a key away where it has the expected value; the value that it had: it was taken away
    // where that is the expected one.
    result<std::optional<value>> try_erase_if(key k, value expected) {
        return value_of(regnubas_delete_if(&raw_, k, raw_of(expected)));
    }
    std::optional<value> erase_if(key k, value expected) { return try_erase_if(k, expected).get(); }

    // Sets a key where it has the expected value; the value that it had: it was set where that is
    // the expected one.
    result<std::optional<value>> try_replace_if(key k, value expected, value v) {
        return value_of(regnubas_replace_if(&raw_, k, raw_of(expected), raw_of(v)));
    }
    std::optional<value> replace_if(key k, value expected, value v) { return try_replace_if(k, expected, v).get(); }

    // Takes the pair with the least key away.
    result<std::optional<pair>> try_pop_first() {
        regnubas_pair found = {};
        return pair_of(regnubas_pop_first(&raw_, &found), found);
    }
    std::optional<pair> pop_first() { return try_pop_first().get(); }

    // Takes the pair with the greatest key away.
    result<std::optional<pair>> try_pop_last() {
        regnubas_pair found = {};
        return pair_of(regnubas_pop_last(&raw_, &found), found);
    }
    std::optional<pair> pop_last() { return try_pop_last().get(); }

    // The pair with the least key above this one.
    result<std::optional<pair>> try_successor(key k) {
        regnubas_pair found = {};
        return pair_of(regnubas_successor(&raw_, k, &found), found);
    }
    std::optional<pair> successor(key k) { return try_successor(k).get(); }

    // The pair with the greatest key below this one.
    result<std::optional<pair>> try_predecessor(key k) {
        regnubas_pair found = {};
        return pair_of(regnubas_predecessor(&raw_, k, &found), found);
    }
    std::optional<pair> predecessor(key k) { return try_predecessor(k).get(); }

    // The first pairs by rising key from `low` to `high`, both with them, all of one moment; 64 at
    // the most.
    result<std::vector<pair>> try_range(key low, key high, std::size_t most = 64) {
        std::array<regnubas_pair, 64> found = {};
        const regnubas_count told = regnubas_range(&raw_, low, high, found.data(), std::min(most, found.size()));
        if (told.status != REGNUBAS_SOME) return static_cast<status>(told.status);
        return pairs_of(std::vector<pair>(told.pairs), found.data());
    }
    std::vector<pair> range(key low, key high, std::size_t most = 64) { return try_range(low, high, most).get(); }

    // All pairs from `low` to `high`, both with them, for a range-for: each 64 of one moment.
    inline between items(key low = 0, key high = std::numeric_limits<key>::max());

    // Rests between two calls, ten or a hundred of them, and after `full`, where the dictionary
    // lasts; the place of the pass that it waits for among those that were made, from 0 on, or
    // nothing. Either way the pass may go on. One that neither rests nor is away holds up all
    // others.
    result<std::optional<std::uint32_t>> try_rest() {
        std::uint32_t other = 0;
        const std::uint32_t told = regnubas_rest(&raw_, &other);
        if (told == REGNUBAS_NONE) return std::optional<std::uint32_t>();
        if (told == REGNUBAS_SOME) return std::optional<std::uint32_t>(other);
        return static_cast<status>(told);
    }
    std::optional<std::uint32_t> rest() { return try_rest().get(); }

    // Goes away before a while without calls, so that no other pass waits for this one; comes back.
    // Whether it did: it was there, and its dictionary lasts; it was away.
    bool away() noexcept { return regnubas_away(&raw_) == REGNUBAS_NONE; }
    bool back() noexcept { return regnubas_back(&raw_) == REGNUBAS_NONE; }

    // What is left of the share, where the dictionary lasts until a rest adds to it; zeros where
    // there is no pass, or it is away.
    regnubas_share left() { return regnubas_left(&raw_); }

    // Gives the pass up. With the last pass the dictionary is freed.
    void leave() noexcept { regnubas_leave(&raw_); }

    // Ends the dictionary, once all other passes have left; its pairs by rising key.
    result<std::vector<pair>> try_close() {
        std::vector<regnubas_pair> found(std::max<std::size_t>(room_, 1));
        std::vector<pair> pairs(found.size()); // before the dictionary is gone
        const regnubas_count told = regnubas_close(&raw_, found.data(), found.size());
        if (told.status != REGNUBAS_SOME) return static_cast<status>(told.status);
        pairs.resize(told.pairs);
        return pairs_of(std::move(pairs), found.data());
    }
    std::vector<pair> close() { return try_close().get(); }

    // Ends the dictionary, once all other passes have left, and begins the next of this shape, which
    // does not last, with its pairs. They are left in `pairs`, also where the next is refused.
    result<std::vector<pass>> try_renew(std::size_t count, regnubas_limits each, std::vector<pair> &pairs) {
        auto closed = try_close();
        if (!closed) return closed.why();
        pairs = std::move(closed).get();
        return try_of_pairs(pairs.begin(), pairs.end(), count, each, shape_);
    }
    std::vector<pass> renew(std::size_t count, regnubas_limits each, std::vector<pair> &pairs) {
        return try_renew(count, each, pairs).get();
    }

private:
    regnubas_pass raw_ = {};
    std::size_t room_ = 0; // for all pairs that the dictionary can have
    shape shape_ = shape::tree;

    // So many passes of a dictionary of this shape, with room for so many pairs, that `make` has made.
    template <typename Make>
    static result<std::vector<pass>> made(std::size_t count, std::size_t room, shape is, Make make) {
        if (count == 0 || count > 32) return status::limits;
        std::vector<pass> passes(count);
        std::array<regnubas_pass, 32> raw = {};
        const std::uint32_t told = make(raw.data());
        if (told != REGNUBAS_NONE) return static_cast<status>(told);
        for (std::size_t i = 0; i < count; i++) {
            passes[i].raw_ = raw[i];
            passes[i].room_ = room;
            passes[i].shape_ = is;
        }
        return result<std::vector<pass>>(std::move(passes));
    }

    static regnubas_value raw_of(value v) { return {v.low, v.high}; }

    static pair pair_in(const regnubas_pair &p) { return {p.key, {p.value.low, p.value.high}}; }

    static result<std::optional<value>> value_of(regnubas_answer told) {
        if (told.status == REGNUBAS_NONE) return std::optional<value>();
        if (told.status == REGNUBAS_SOME) return std::optional<value>({told.value.low, told.value.high});
        return static_cast<status>(told.status);
    }

    static result<std::optional<pair>> pair_of(std::uint32_t told, const regnubas_pair &found) {
        if (told == REGNUBAS_NONE) return std::optional<pair>();
        if (told == REGNUBAS_SOME) return std::optional<pair>(pair_in(found));
        return static_cast<status>(told);
    }

    // These pairs, as many as there are places.
    static result<std::vector<pair>> pairs_of(std::vector<pair> places, const regnubas_pair *found) {
        std::transform(found, found + places.size(), places.begin(), pair_in);
        return result<std::vector<pair>>(std::move(places));
    }
};

// The pairs from one key to another, read 64 at a time, the first at once. It is gone through once,
// and neither it nor the pass moves meanwhile; a chunk that is refused because others are in the
// way is asked for again.
class between {
public:
    between(pass &from, key low, key high) : from_(&from), next_(low), high_(high), more_(low <= high) { read(); }
    between(const between &) = delete;
    between &operator=(const between &) = delete;

    class iterator {
    public:
        using iterator_category = std::input_iterator_tag;
        using value_type = pair;
        using difference_type = std::ptrdiff_t;
        using pointer = const pair *;
        using reference = const pair &;

        explicit iterator(between *in = nullptr) : in_(in) {}
        const pair &operator*() const { return in_->chunk_[in_->at_]; }
        const pair *operator->() const { return &**this; }
        iterator &operator++() {
            in_->step();
            return *this;
        }
        struct kept {
            pair found;
            const pair &operator*() const { return found; }
        };
        kept operator++(int) {
            kept old = {**this};
            ++*this;
            return old;
        }
        bool operator==(const iterator &other) const { return over() == other.over(); }
        bool operator!=(const iterator &other) const { return !(*this == other); }

    private:
        between *in_;
        bool over() const { return !in_ || in_->at_ == in_->chunk_.size(); }
    };

    iterator begin() { return iterator(this); }
    iterator end() { return iterator(); }

private:
    pass *from_;
    key next_, high_;
    bool more_;
    std::vector<pair> chunk_;
    std::size_t at_ = 0;

    void step() {
        if (++at_ == chunk_.size()) read();
    }

    void read() {
        chunk_.clear();
        at_ = 0;
        if (!more_) return;
        chunk_ = again([&] { return from_->try_range(next_, high_); }).get();
        more_ = chunk_.size() == 64 && chunk_.back().first < high_;
        if (more_) next_ = chunk_.back().first + 1;
    }
};

inline between pass::items(key low, key high) { return between(*this, low, high); }

} // namespace regnubas

#endif
