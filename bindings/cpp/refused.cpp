// Each allocation of a story is refused in turn, alone and then with all after it, those of the
// library and those of C++: the call throws `refused` or `bad_alloc`, or does without; nothing
// leaks, and the dictionary is as it was.
#include "refusing_heap.hpp"
#include "regnubas.hpp"

#include <cstdio>
#include <cstdlib>
#include <new>

#define CHECK(what) \
    do { if (!(what)) { std::fprintf(stderr, "%s:%d: %s (refusing %ld)\n", __FILE__, __LINE__, #what, refuse); std::abort(); } } while (0)

static bool of_cpp = false; // whether allocations of C++ are refused as well

void *operator new(std::size_t n) {
    if (of_cpp && is_refused()) throw std::bad_alloc();
    blocks++;
    return std::malloc(n);
}
void *operator new(std::size_t n, std::align_val_t a) {
    if (of_cpp && is_refused()) throw std::bad_alloc();
    blocks++;
    return std::aligned_alloc(static_cast<std::size_t>(a), n);
}
static void give_back(void *p) {
    if (p) blocks--;
    std::free(p);
}
void operator delete(void *p) noexcept { give_back(p); }
void operator delete(void *p, std::size_t) noexcept { give_back(p); }
void operator delete(void *p, std::align_val_t) noexcept { give_back(p); }
void operator delete(void *p, std::size_t, std::align_val_t) noexcept { give_back(p); }

// Whether a call was done. An exception has memory of its own.
template <typename Call> static bool is_done(Call call) {
    of_cpp = true;
    bool done = true;
    try {
        call();
    } catch (const regnubas::refused &fault) {
        of_cpp = false;
        CHECK(fault.why() == regnubas::status::no_memory);
        done = false;
    } catch (const std::bad_alloc &) {
        done = false;
    }
    of_cpp = false;
    return done;
}

static std::size_t pairs_in(regnubas::pass &pass, regnubas::key low) {
    std::size_t pairs = 0;
    for (const auto &[key, value] : pass.items(low)) pairs += value == regnubas::value(key / 2, ~key);
    return pairs;
}

// Whether all was done.
static bool story() {
    asked = 0;
    std::vector<regnubas::pass> passes;
    if (!is_done([&] { passes = regnubas::pass::make(3, {300, 100, 2}); })) {
        CHECK(blocks == 0);
        return false;
    }
    for (regnubas::key k = 0; k < 90; k++) CHECK(!passes[0].insert(2 * k, {k, ~(2 * k)}));
    bool all = true;
    for (regnubas::key k = 0; k < 90; k += 9) {
        std::size_t pairs = 0;
        std::optional<regnubas::pair> next;
        if (is_done([&] { pairs = pairs_in(passes[1], 2 * k); })) CHECK(pairs == 90 - k);
        else all = false;
        if (is_done([&] { next = passes[1].successor(2 * k); })) CHECK(next ? next->first == 2 * k + 2 : k == 89);
        else all = false;
        if (is_done([&] { next = passes[1].predecessor(2 * k); })) CHECK(next ? next->first == 2 * k - 2 : k == 0);
        else all = false;
        CHECK(passes[2].get(2 * k) == regnubas::value(k, ~(2 * k)));
    }
    for (std::size_t i = 1; i < 3; i++) passes[i].leave();
    std::size_t pairs = 0;
    if (is_done([&] { pairs = passes[0].close().size(); })) CHECK(pairs == 90);
    else all = false;
    passes = std::vector<regnubas::pass>();
    CHECK(blocks == 0);
    return all;
}

// The same of one that begins with pairs, and is renewed.
static bool renewed() {
    asked = 0;
    bool all = true;
    {
        const std::vector<regnubas::pair> pairs = {{1, 10}, {2, 20}, {3, {30, 1}}, {5, 50}, {9, 90}};
        std::vector<regnubas::pair> left;
        std::vector<regnubas::pass> passes;
        all = is_done([&] { passes = regnubas::pass::of_pairs(pairs.begin(), pairs.end(), 1, {30, 10, 2}); })
            && is_done([&] { passes = passes[0].renew(2, {10, 5, 2}, left); });
        if (all) CHECK(left == pairs && passes[1].get(3) == regnubas::value(30, 1));
        else CHECK(left.empty() || left == pairs);
    }
    CHECK(blocks == 0);
    return all;
}

template <typename Story> static void refuse_each(Story story) {
    refuse = 0;
    onwards = false;
    CHECK(story());
    long count = asked, without = 0;
    for (refuse = 1; refuse <= count; refuse++) without += story();
    onwards = true;
    for (refuse = 1; refuse <= count; refuse++) CHECK(!story());
    std::printf("ok: %ld allocations, each refused in turn; %ld of them could be done without\n", count, without);
}

int main() {
    refuse_each(story);
    refuse_each(renewed);
}
