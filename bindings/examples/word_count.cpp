// word_count FILE: four threads count the words of a text in one dictionary, and then in a map with
// a lock. It prints the twenty most frequent words with both counts, and how long each way took:
// the least of five rounds.
//
// A key is the first twelve letters of a word, five bits each: so keys have the order of words.
#include <regnubas.hpp>

#include <algorithm>
#include <chrono>
#include <cstdio>
#include <fstream>
#include <iterator>
#include <map>
#include <mutex>
#include <string>
#include <thread>
#include <vector>

namespace {

using regnubas::again;
using regnubas::key;
using counts = std::map<key, std::uint64_t>;

constexpr std::size_t THREADS = 4, ROUNDS = 5, LETTERS = 12, SHOWN = 20;

bool is_letter(char c) { return 'a' <= (c | 32) && (c | 32) <= 'z'; }

key key_of(const std::string &word) {
    key packed = 0;
    for (std::size_t i = 0; i < LETTERS; i++) packed = packed << 5 | (i < word.size() ? word[i] & 31 : 0);
    return packed;
}

std::string word_of(key packed) {
    std::string word;
    for (; packed != 0; packed >>= 5)
        if (packed % 32 != 0) word.insert(word.begin(), static_cast<char>('a' - 1 + packed % 32));
    return word;
}

std::vector<key> words_of(std::istream &text) {
    std::vector<key> words;
    std::string word;
    for (std::istreambuf_iterator<char> c(text), end; c != end; ++c) {
        if (is_letter(*c)) {
            word += *c;
        } else if (!word.empty()) {
            words.push_back(key_of(word));
            word.clear();
        }
    }
    if (!word.empty()) words.push_back(key_of(word));
    return words;
}

// Four threads each count a part of the words by `count(thread, word)`; the seconds that it took.
template <typename Count> double in_threads(const std::vector<key> &words, Count count) {
    const auto start = std::chrono::steady_clock::now();
    std::vector<std::thread> threads;
    for (std::size_t t = 0; t < THREADS; t++)
        threads.emplace_back([&, t] {
            for (std::size_t i = words.size() * t / THREADS; i < words.size() * (t + 1) / THREADS; i++) count(t, words[i]);
        });
    for (std::thread &thread : threads) thread.join();
    return std::chrono::duration<double>(std::chrono::steady_clock::now() - start).count();
}

void count_up(regnubas::pass &own, key word) {
    auto seen = again([&] { return own.try_insert_new(word, 1); }).get();
    while (seen) {
        const auto found = again([&] { return own.try_replace_if(word, *seen, seen->low + 1); }).get();
        if (found == seen) return;
        seen = found;
    }
}

double count_shared(const std::vector<key> &words, counts &into) {
    const auto changes = static_cast<std::uint32_t>(words.size() / THREADS + 1);
    auto passes = regnubas::pass::make(THREADS, regnubas::limits_for(changes, changes));
    const double seconds = in_threads(words, [&](std::size_t thread, key word) { count_up(passes[thread], word); });
    for (const auto &[word, count] : passes[0].items()) into[word] = count.low;
    return seconds;
}

double count_locked(const std::vector<key> &words, counts &into) {
    std::mutex lock;
    return in_threads(words, [&](std::size_t, key word) {
        const std::lock_guard<std::mutex> held(lock);
        into[word]++;
    });
}

void show_most_frequent(const counts &shared, const counts &locked) {
    std::vector<std::pair<key, std::uint64_t>> most(shared.begin(), shared.end());
    std::stable_sort(most.begin(), most.end(), [](const auto &one, const auto &other) { return one.second > other.second; });
    most.resize(std::min(most.size(), SHOWN));
    std::printf("%-12s %8s %8s\n", "word", "regnubas", "lock");
    for (const auto &[word, count] : most)
        std::printf("%-12s %8llu %8llu\n", word_of(word).c_str(), static_cast<unsigned long long>(count),
                    static_cast<unsigned long long>(locked.at(word)));
}

} // namespace

int main(int argc, char **argv) {
    std::ifstream text(argc == 2 ? argv[1] : "");
    if (!text) {
        std::fputs("usage: word_count FILE\n", stderr);
        return 2;
    }
    const std::vector<key> words = words_of(text);
    counts shared, locked;
    double shared_seconds = 1e9, locked_seconds = 1e9;
    for (std::size_t round = 0; round < ROUNDS; round++) {
        shared.clear();
        locked.clear();
        shared_seconds = std::min(shared_seconds, count_shared(words, shared));
        locked_seconds = std::min(locked_seconds, count_locked(words, locked));
    }
    show_most_frequent(shared, locked);
    std::printf("%zu words, %zu of them different, %zu threads: regnubas %.2f ms, lock %.2f ms\n", words.size(),
                shared.size(), THREADS, 1000 * shared_seconds, 1000 * locked_seconds);
    return shared == locked ? 0 : 1;
}
