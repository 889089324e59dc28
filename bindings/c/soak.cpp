// A soak of a dictionary that lasts: threads make random calls of all kinds on passes of small shares, rest after 1 to
// 64 calls, go away now and then and are back, for as long as is asked. Every few seconds all meet, and trade passes:
// what has gone in and not come out, by their replies, has to be what the map has. Each reply has to be possible: so a
// key that one thread alone sets never has an older value for it. No call may stay Full once its pass waits for nobody,
// and memory may not grow. Each minute it prints a line of figures; its status is 0 if nothing was wrong. `soak
// NAME=NUMBER ..` takes what `Options` has.
#include "regnubas.h"

#include <atomic>
#include <chrono>
#include <cinttypes>
#include <condition_variable>
#include <cstdio>
#include <cstdlib>
#include <cstring>
#include <mutex>
#include <thread>
#include <unistd.h>
#include <vector>

namespace {

using Clock = std::chrono::steady_clock;

struct Options {
    uint64_t seconds = 60, threads = 4;
    uint64_t nodes = 1024, scx = 1024; // of a share
    uint64_t trie = 0;                 // 1: a trie, else a tree
    uint64_t pops = 1;                 // 0: without pop_first and pop_last
    uint64_t seed = 1;                 // odd: the passes end it at once; even: the last one closes it
    uint64_t keys = 0;                 // so many may be in the map; 0: a quarter of a share
    uint64_t meet = 5;                 // after so many seconds all meet
    uint64_t growth = 1024;            // so many kB may memory grow
};

// How long a call is asked again, and how often it may be Full in a row where its pass waits for nobody: a slot takes
// three rests to come back.
constexpr auto PATIENCE = std::chrono::seconds(60);
constexpr uint32_t MOST_FULL = 8;

// The figures that are counted: calls by their kind, and what else happens.
enum Figure : uint32_t {
    GET, INSERT, INSERT_NEW, REPLACE_IF, DELETE, DELETE_IF, POP_FIRST, POP_LAST, SUCCESSOR, PREDECESSOR, RANGE, KINDS,
    FULL = KINDS, CONTENDED, RESTS, AWAYS, WAITED, FIGURES
};
const char *const NAMES[FIGURES] = {
    "get", "insert", "insert_new", "replace_if", "delete", "delete_if", "pop_first", "pop_last", "successor",
    "predecessor", "range", "full", "contended", "rests", "aways", "ms waited"};

// Faults, by what they mean.
std::atomic<uint64_t> refused{0}, lost{0}, wrong{0};

// Counts a fault, and says what it is if it is among the first.
void note(std::atomic<uint64_t> &faults, const char *what, uint64_t number) {
    if (faults++ < 20) std::fprintf(stderr, "%s: %" PRIu64 "\n", what, number);
}

bool demand(bool holds, const char *what, uint64_t number) {
    if (!holds) note(wrong, what, number);
    return holds;
}

struct Draws {
    uint64_t word;
    explicit Draws(uint64_t seed) : word(seed * 0x9E3779B97F4A7C15u + 1) {}
    uint64_t next() {
        word ^= word << 13;
        word ^= word >> 7;
        return word ^= word << 17;
    }
    uint64_t below(uint64_t bound) { return next() % bound; }
};

uint64_t mixed(uint64_t word) {
    word = (word ^ word >> 30) * 0xBF58476D1CE4E5B9u;
    word = (word ^ word >> 27) * 0x94D049BB133111EBu;
    return word ^ word >> 31;
}

// The keys rise with their places: eight near each other, and the next eight far away; the first is 0, the last the
// greatest of all.
uint64_t apart(uint64_t keys) { return UINT64_MAX / (keys / 8 + 1); }

uint64_t key_at(uint64_t place, uint64_t keys) {
    return place + 1 == keys ? UINT64_MAX : place / 8 * apart(keys) + place % 8;
}

// Where the key is, if it is any of these.
uint64_t place_of(uint64_t key, uint64_t keys) {
    return key == UINT64_MAX ? keys - 1 : key / apart(keys) * 8 + key % apart(keys);
}

// A value shows its key in its low word, and both in its high word, which is 0 in one of four.
uint64_t high_for(uint64_t key, uint64_t low) { return low % 4 == 0 ? 0 : mixed(low + mixed(key)); }

regnubas_value value_for(uint64_t key, uint64_t draw) {
    const uint64_t low = mixed(key) >> 32 << 32 | draw >> 32;
    return {low, high_for(key, low)};
}

bool fits(uint64_t key, regnubas_value value) {
    return value.low >> 32 == mixed(key) >> 32 && value.high == high_for(key, value.low);
}

bool same(regnubas_value one, regnubas_value other) { return one.low == other.low && one.high == other.high; }

// What has gone in and not come out.
struct Balance {
    uint64_t count = 0, keys = 0, values = 0;

    void in(uint64_t key, regnubas_value value) { count++, keys += key, values += value.low + value.high; }
    void out(uint64_t key, regnubas_value value) { count--, keys -= key, values -= value.low + value.high; }
    void add(const Balance &more) { count += more.count, keys += more.keys, values += more.values; }
    bool operator==(const Balance &other) const {
        return count == other.count && keys == other.keys && values == other.values;
    }
};

// Adds these pairs up, which rise by key from `low` on.
void add_up(Balance &balance, const regnubas_pair *pairs, uint64_t count, uint64_t low, uint64_t high) {
    for (uint64_t i = 0; i < count; i++) {
        const uint64_t key = pairs[i].key, least = i == 0 ? low : pairs[i - 1].key + 1;
        demand(least <= key && key <= high && (i == 0 || least != 0), "a pair out of its range, or order", key);
        demand(fits(key, pairs[i].value), "a pair's value", key);
        balance.in(key, pairs[i].value);
    }
}

uint32_t status_of(uint32_t status) { return status; }
uint32_t status_of(regnubas_answer answer) { return answer.status; }
uint32_t status_of(regnubas_count count) { return count.status; }

// Where threads wait until all are there.
class Meeting {
    std::mutex mutex;
    std::condition_variable ends;
    const uint64_t threads;
    uint64_t there = 0, number = 0;
    bool last = false, over = false;
    std::atomic<bool> called{false};

  public:
    explicit Meeting(uint64_t all) : threads(all) {}

    bool is_called() const { return called.load(std::memory_order_relaxed); }

    void call(bool is_last) {
        std::lock_guard<std::mutex> lock(mutex);
        called = true;
        last = is_last;
    }

    // The last to come does this alone. Whether it is not the last meeting.
    template <typename Work> bool attend(Work work) {
        std::unique_lock<std::mutex> lock(mutex);
        const uint64_t here = number;
        if (++there == threads) {
            work();
            there = 0;
            number++;
            called = false;
            over = last;
            ends.notify_all();
        }
        ends.wait(lock, [&] { return number != here; });
        return !over;
    }
};

// What a thread has counted, and what its replies say. It alone writes.
struct alignas(64) Tally {
    std::atomic<uint64_t> figures[FIGURES] = {};
    Balance balance;

    uint64_t figure(uint32_t which) const { return figures[which].load(std::memory_order_relaxed); }
    void add(uint32_t which, uint64_t more) {
        figures[which].store(figure(which) + more, std::memory_order_relaxed);
    }
};

// All that threads share.
struct Shared {
    const Options options;
    std::vector<regnubas_pass> passes;
    std::vector<Tally> tallies;
    Meeting meeting;
    Balance missed; // what was found to be missing, so that it is told once
    std::atomic<uint64_t> pairs{0}, longest{0}, meetings{0};

    explicit Shared(const Options &chosen)
        : options(chosen), passes(chosen.threads), tallies(chosen.threads), meeting(chosen.threads) {}

    uint64_t figure(uint32_t which) const {
        uint64_t sum = 0;
        for (const Tally &tally : tallies) sum += tally.figure(which);
        return sum;
    }

    // What the map has is what the threads have put in and not taken out.
    void compare(const Balance &found) {
        Balance left = missed;
        for (const Tally &tally : tallies) left.add(tally.balance);
        if (found == left) return;
        note(lost, "pairs that are there, and not those that went in", found.count);
        std::fprintf(stderr, "pairs that went in and did not come out: %" PRIu64 "\n", left.count);
        missed.add({found.count - left.count, found.keys - left.keys, found.values - left.values});
    }
};

// What a thread knows of a key that it alone sets: the value that it has, unless another has taken it away since.
struct Own {
    bool is_set = false;
    regnubas_value value = {};
};

// Between two meetings the calls of a thread lean so.
enum Mood : uint32_t { EVEN, GROW, IN_ORDER, SHRINK, MOODS };

class Worker {
    Shared &all;
    Tally &tally;
    const uint64_t number, keys;
    uint64_t seat; // the place of its pass
    Draws draws;
    Mood mood = GROW;
    uint64_t next = 0;
    std::vector<Own> own; // by the places of keys

  public:
    Worker(Shared &shared, uint64_t which)
        : all(shared), tally(shared.tallies[which]), number(which), keys(shared.options.keys), seat(which),
          draws(shared.options.seed << 8 | which), own(keys) {}

    // Until the last meeting.
    void work() {
        do {
            while (!all.meeting.is_called()) {
                for (uint64_t calls = 1 + draws.below(64); calls > 0; calls--) call();
                rest();
                if (draws.below(5000) == 0) go_away_for_a_while();
            }
        } while (meet());
    }

  private:
    regnubas_pass *pass() { return &all.passes[seat]; }

    uint64_t draw_place() { return draws.below(keys); }

    // Half the keys are set by one thread alone each: where this is another one, the key before.
    bool is_ones(uint64_t place) const { return place % 2 != 0; }
    bool is_own(uint64_t place) const { return is_ones(place) && place / 2 % all.options.threads == number; }
    uint64_t may_set(uint64_t place) const { return is_ones(place) && !is_own(place) ? place - 1 : place; }

    // A reply has shown a pair: the key has what its thread has set last.
    void see(uint64_t key, regnubas_value value) {
        const uint64_t place = place_of(key, keys);
        if (!demand(place < keys && key_at(place, keys) == key && fits(key, value), "a key, or its value", key)) return;
        if (is_own(place)) demand(own[place].is_set && same(own[place].value, value), "an old value", key);
    }

    void put_in(uint64_t place, regnubas_value value) {
        tally.balance.in(key_at(place, keys), value);
        if (is_own(place)) own[place] = {true, value};
    }

    void take_out(uint64_t key, regnubas_value value) {
        tally.balance.out(key, value);
        const uint64_t place = place_of(key, keys);
        if (place < keys) own[place].is_set = false;
    }

    // Whether it waits for another pass.
    bool rest() {
        uint32_t other = UINT32_MAX;
        const uint32_t status = regnubas_rest(pass(), &other);
        tally.add(RESTS, 1);
        const bool waits = status == REGNUBAS_SOME;
        demand(waits ? other < all.options.threads && other != seat : status == REGNUBAS_NONE, "a rest", other);
        return waits;
    }

    void go_away() { demand(regnubas_away(pass()) == REGNUBAS_NONE, "away", seat); }

    void come_back() { demand(regnubas_back(pass()) == REGNUBAS_NONE, "back", seat); }

    void go_away_for_a_while() {
        tally.add(AWAYS, 1);
        go_away();
        demand(regnubas_get(pass(), 0).status == REGNUBAS_NO_PASS, "a call while it is away", seat);
        const uint64_t most = draws.below(16) == 0 ? 500000 : 20000;
        std::this_thread::sleep_for(std::chrono::microseconds(draws.below(most)));
        come_back();
    }

    // A call is made until it is done. If the share is used up it rests before it asks again.
    template <typename Call> auto ask(Figure kind, Call call) -> decltype(call()) {
        Clock::time_point begin, now; // of what is refused
        bool waits = false;
        for (uint32_t alone = 0, asked = 0;; asked++) {
            const auto answer = call();
            const uint32_t status = status_of(answer);
            if (status <= REGNUBAS_SOME) {
                tally.add(kind, 1);
                if (waits) waited(Clock::now() - begin);
                return answer;
            }
            now = Clock::now();
            if (asked == 0) begin = now;
            const bool again = status == REGNUBAS_CONTENDED || status == REGNUBAS_FULL;
            if (!again || alone == MOST_FULL || now - begin > PATIENCE) {
                note(refused, NAMES[kind], status);
                return answer;
            }
            if (status == REGNUBAS_CONTENDED) tally.add(CONTENDED, 1);
            else if (rest_to_go_on()) waits = true, alone = 0;
            else alone++;
        }
    }

    // The pass has asked for too much. Whether it waits for another.
    bool rest_to_go_on() {
        tally.add(FULL, 1);
        if (!rest()) return false;
        std::this_thread::yield();
        return true;
    }

    // A call has waited for other passes.
    void waited(Clock::duration time) {
        const uint64_t took = std::chrono::duration_cast<std::chrono::microseconds>(time).count();
        tally.add(WAITED, took);
        uint64_t longest = all.longest;
        while (longest < took && !all.longest.compare_exchange_weak(longest, took)) {}
    }

    // Whether a call has told a value that the key may have had, or that it had none.
    bool has_told(regnubas_answer answer, uint64_t place) {
        if (answer.status > REGNUBAS_SOME) return false;
        if (answer.status == REGNUBAS_SOME) see(key_at(place, keys), answer.value);
        else {
            demand(same(answer.value, {0, 0}), "a value of none", place);
            own[place].is_set = false;
        }
        return true;
    }

    // What a call of one key has told.
    template <typename Call> regnubas_answer tell(Figure kind, uint64_t place, Call call) {
        const uint64_t key = key_at(place, keys);
        const auto answer = ask(kind, [&] { return call(pass(), key); });
        has_told(answer, place);
        return answer;
    }

    regnubas_answer get(uint64_t place) { return tell(GET, place, regnubas_get); }

    regnubas_value draw_value(uint64_t place) { return value_for(key_at(place, keys), draws.next()); }

    void insert(uint64_t place) {
        const regnubas_value value = draw_value(place);
        const auto old =
            tell(INSERT, place, [&](regnubas_pass *by, uint64_t key) { return regnubas_insert(by, key, value); });
        if (old.status == REGNUBAS_SOME) take_out(key_at(place, keys), old.value);
        if (old.status <= REGNUBAS_SOME) put_in(place, value);
    }

    void insert_new(uint64_t place) {
        const regnubas_value value = draw_value(place);
        const auto old = tell(INSERT_NEW, place, [&](regnubas_pass *by, uint64_t key) {
            return regnubas_insert_new(by, key, value);
        });
        if (old.status == REGNUBAS_NONE) put_in(place, value);
    }

    // A value that the key is likely to have, if it has one.
    regnubas_value expect(uint64_t place) {
        const regnubas_answer seen = get(place);
        return seen.status == REGNUBAS_SOME && draws.below(8) > 0 ? seen.value : draw_value(place);
    }

    void replace_if(uint64_t place) {
        const regnubas_value expected = expect(place), value = draw_value(place);
        const auto old = tell(REPLACE_IF, place, [&](regnubas_pass *by, uint64_t key) {
            return regnubas_replace_if(by, key, expected, value);
        });
        if (old.status != REGNUBAS_SOME || !same(old.value, expected)) return;
        take_out(key_at(place, keys), expected);
        put_in(place, value);
    }

    void take(uint64_t place) {
        const auto old = tell(DELETE, place, regnubas_delete);
        if (old.status == REGNUBAS_SOME) take_out(key_at(place, keys), old.value);
    }

    void delete_if(uint64_t place) {
        const regnubas_value expected = expect(place);
        const auto old = tell(DELETE_IF, place, [&](regnubas_pass *by, uint64_t key) {
            return regnubas_delete_if(by, key, expected);
        });
        if (old.status == REGNUBAS_SOME && same(old.value, expected)) take_out(key_at(place, keys), expected);
    }

    template <typename Take> void pop(Figure kind, Take take) {
        regnubas_pair pair = {};
        if (ask(kind, [&] { return take(pass(), &pair); }) != REGNUBAS_SOME) return;
        see(pair.key, pair.value);
        take_out(pair.key, pair.value);
    }

    template <typename Find> void find(Figure kind, uint64_t key, Find find) {
        regnubas_pair pair = {};
        if (ask(kind, [&] { return find(pass(), key, &pair); }) != REGNUBAS_SOME) return;
        demand(kind == SUCCESSOR ? pair.key > key : pair.key < key, NAMES[kind], pair.key);
        see(pair.key, pair.value);
    }

    // Adds up the first pairs between two keys; how many, and the key of the last.
    uint64_t range(Balance &found, uint64_t low, uint64_t high, uint64_t most, uint64_t *last) {
        regnubas_pair pairs[64] = {};
        const auto told = ask(RANGE, [&] { return regnubas_range(pass(), low, high, pairs, most); });
        if (told.status > REGNUBAS_SOME) return 0;
        if (!demand(told.status == REGNUBAS_SOME && told.pairs <= most, "a range's number", told.pairs)) return 0;
        add_up(found, pairs, told.pairs, low, high);
        for (uint64_t i = 0; i < told.pairs; i++) see(*last = pairs[i].key, pairs[i].value);
        return told.pairs;
    }

    void draw_range() {
        Balance found;
        uint64_t last = 0;
        const uint64_t low = key_at(draw_place(), keys), high = key_at(draw_place(), keys);
        range(found, low, high, draws.below(65), &last);
    }

    Figure draw_kind() {
        const Figure kind = Figure(draws.below(KINDS));
        const bool adds = kind == INSERT || kind == INSERT_NEW, takes = DELETE <= kind && kind <= POP_LAST;
        if (mood == GROW && takes && draws.below(4) > 0) return INSERT_NEW;
        if (mood == SHRINK && adds && draws.below(4) > 0) return DELETE;
        if (mood == IN_ORDER && draws.below(2) == 0) return INSERT_NEW;
        return kind;
    }

    void call() {
        const Figure kind = draw_kind();
        const uint64_t place = mood == IN_ORDER && kind == INSERT_NEW ? next++ % keys : draw_place();
        const bool pops = all.options.pops != 0;
        switch (kind) {
            case INSERT: return insert(may_set(place));
            case INSERT_NEW: return insert_new(may_set(place));
            case REPLACE_IF: return replace_if(may_set(place));
            case DELETE: return take(place);
            case DELETE_IF: return delete_if(place);
            case POP_FIRST: return pops ? pop(kind, regnubas_pop_first) : take(place);
            case POP_LAST: return pops ? pop(kind, regnubas_pop_last) : take(place);
            case SUCCESSOR: return find(kind, key_at(place, keys), regnubas_successor);
            case PREDECESSOR: return find(kind, key_at(place, keys), regnubas_predecessor);
            case RANGE: return draw_range();
            default: get(place);
        }
    }

    // All pairs, by ranges, while no other thread works.
    Balance all_pairs() {
        Balance found;
        uint64_t low = 0, last = 0;
        while (range(found, low, UINT64_MAX, 64, &last) == 64 && last < UINT64_MAX) low = last + 1;
        return found;
    }

    // The same, by asking for each key.
    Balance each_key() {
        Balance found;
        for (uint64_t place = 0; place < keys; place++) {
            const regnubas_answer answer = get(place);
            if (answer.status == REGNUBAS_SOME) found.in(key_at(place, keys), answer.value);
        }
        return found;
    }

    void take_stock() {
        come_back();
        const Balance found = all_pairs();
        all.compare(found);
        demand(found == each_key(), "keys that are in a range but not found, or found but not there", found.count);
        all.pairs = found.count;
        all.meetings++;
        go_away();
    }

    // No thread may wait for one that is here: so it is away. Behind it each has the pass of another.
    bool meet() {
        go_away();
        const bool more = all.meeting.attend([&] { take_stock(); });
        seat = (seat + 1) % all.options.threads;
        come_back();
        mood = Mood((all.meetings + draws.below(2)) % MOODS);
        return more;
    }
};

// kB of memory that are there.
uint64_t resident() {
    unsigned long size = 0, pages = 0;
    std::FILE *file = std::fopen("/proc/self/statm", "r");
    if (!file || std::fscanf(file, "%lu %lu", &size, &pages) != 2) std::abort();
    std::fclose(file);
    return uint64_t(pages) * sysconf(_SC_PAGESIZE) / 1024;
}

// Prints what the figures have risen by since the last line.
void print_line(const Shared &all, uint64_t minute, std::vector<uint64_t> &before) {
    std::printf("%" PRIu64, minute);
    for (uint32_t i = 0; i < FIGURES; i++) {
        const uint64_t sum = all.figure(i);
        std::printf(",%" PRIu64, (sum - before[i]) / (i == WAITED ? 1000 : 1));
        before[i] = sum;
    }
    std::printf(",%" PRIu64 ",%" PRIu64 "\n", all.pairs.load(), resident());
    std::fflush(stdout);
}

void print_names() {
    std::printf("minute");
    for (const char *name : NAMES) std::printf(",%s", name);
    std::puts(",pairs,kB");
}

// Calls meetings and prints lines while the threads work; the kB of memory after the first tenth.
uint64_t keep_time(Shared &all) {
    const Clock::time_point begin = Clock::now();
    const uint64_t seconds = all.options.seconds;
    std::vector<uint64_t> before(FIGURES);
    uint64_t early = 0;
    print_names();
    for (uint64_t second = 1; second <= seconds; second++) {
        std::this_thread::sleep_until(begin + std::chrono::seconds(second));
        if (early == 0 && second * 10 >= seconds) early = resident();
        if (second % 60 == 0 || second == seconds) print_line(all, (second + 59) / 60, before);
        if (second % all.options.meet == 0 || second == seconds) all.meeting.call(second == seconds);
    }
    return early;
}

// All passes end the dictionary, or the last of them: the pairs that are left.
std::vector<regnubas_pair> end(Shared &all) {
    std::vector<regnubas_pair> pairs(2 * all.options.threads * all.options.nodes + 1);
    const bool at_once = all.options.seed % 2 != 0;
    for (uint64_t i = 1; i < all.passes.size() && !at_once; i++) regnubas_leave(&all.passes[i]);
    const regnubas_count count =
        at_once ? regnubas_end(all.passes.data(), all.passes.size(), pairs.data(), pairs.size())
                : regnubas_close(&all.passes[0], pairs.data(), pairs.size());
    if (count.status != REGNUBAS_SOME) note(refused, "the end", count.status);
    pairs.resize(count.pairs < pairs.size() ? count.pairs : pairs.size());
    return pairs;
}

void compare_end(Shared &all) {
    Balance found;
    const std::vector<regnubas_pair> pairs = end(all);
    add_up(found, pairs.data(), pairs.size(), 0, UINT64_MAX);
    all.compare(found);
}

bool read(const char *word, Options &options) {
    const struct { const char *name; uint64_t *number; } NUMBERS[] = {
        {"seconds", &options.seconds}, {"threads", &options.threads}, {"nodes", &options.nodes}, {"scx", &options.scx},
        {"trie", &options.trie}, {"pops", &options.pops}, {"seed", &options.seed}, {"keys", &options.keys},
        {"meet", &options.meet}, {"growth", &options.growth}};
    const char *is = std::strchr(word, '=');
    if (!is || is[1] == 0 || std::strspn(is + 1, "0123456789") != std::strlen(is + 1)) return false;
    for (const auto &[name, number] : NUMBERS)
        if (std::strlen(name) == size_t(is - word) && std::strncmp(name, word, is - word) == 0) {
            *number = std::strtoull(is + 1, nullptr, 10);
            return true;
        }
    return false;
}

// With so many keys a share is never in use by more than a half, whoever has put them in: each takes two nodes at the
// most, and each node holds an SCX-record at the most.
void choose_keys(Options &options) {
    if (options.keys == 0) options.keys = (options.nodes < options.scx ? options.nodes : options.scx) / 4;
    if (options.keys == 0) options.keys = 1;
}

bool are_in_range(const Options &options) {
    return options.seconds > 0 && options.meet > 0 && 0 < options.threads && options.threads <= 32 &&
           options.nodes <= 32768 && options.scx <= 32768;
}

bool make(Shared &all) {
    const Options &options = all.options;
    const regnubas_limits each = {uint32_t(options.nodes), uint32_t(options.scx), 1};
    const auto make = options.trie ? regnubas_make_lasting_trie : regnubas_make_lasting;
    return make(each, all.passes.data(), all.passes.size()) == REGNUBAS_NONE;
}

void work(Shared &all, uint64_t *early) {
    std::vector<std::thread> threads;
    for (uint64_t i = 0; i < all.options.threads; i++) threads.emplace_back([&all, i] { Worker(all, i).work(); });
    *early = keep_time(all);
    for (std::thread &thread : threads) thread.join();
}

// Whether memory has grown by too much.
bool print_end(const Shared &all, uint64_t early, uint64_t late) {
    uint64_t calls = 0;
    for (uint32_t i = 0; i < KINDS; i++) calls += all.figure(i);
    const bool grown = late > early + all.options.growth;
    std::printf("%" PRIu64 " calls, %" PRIu64 " meetings; the longest wait %" PRIu64 " ms\n", calls,
                all.meetings.load(), all.longest.load() / 1000);
    std::printf("memory: %" PRIu64 " kB after the first tenth, %" PRIu64 " kB at the end%s\n", early, late,
                grown ? ": it has grown" : "");
    std::printf("refused: %" PRIu64 ", lost: %" PRIu64 ", wrong: %" PRIu64 "\n", refused.load(), lost.load(),
                wrong.load());
    return grown;
}

} // namespace

int main(int argc, char **argv) {
    Options options;
    for (int i = 1; i < argc; i++)
        if (!read(argv[i], options)) {
            std::fprintf(stderr, "soak: %s is none of its NAME=NUMBER\n", argv[i]);
            return 2;
        }
    if (!are_in_range(options)) {
        std::fputs("soak: a number is out of its range\n", stderr);
        return 2;
    }
    choose_keys(options);
    Shared all(options);
    if (!make(all)) {
        std::fputs("soak: there is no room\n", stderr);
        return 2;
    }
    uint64_t early = 0;
    work(all, &early);
    const uint64_t late = resident();
    compare_end(all);
    const bool grown = print_end(all, early, late);
    return grown || refused + lost + wrong != 0;
}
