// Makes the calls of client 0 in a script on the twin's tree or trie, and prints each atomic step: what is
// done (`load`, `store` or `exchange`), the word, and what it held before and behind it.
//
//     g++ -std=c++17 -O1 -o steps steps.cpp && ./steps tree <script.csv
#include <atomic>
#include <cstdint>
#include <cstdio>
#include <string>

class ToldWord {
public:
    static inline ToldWord* first = nullptr;
    static inline bool tells = false;

    std::uint64_t load() const { return tell("load", word_, word_); }

    void store(std::uint64_t value, std::memory_order = std::memory_order_seq_cst) {
        if (!first) first = this;
        tell("store", word_, value);
        word_ = value;
    }

    bool compare_exchange_strong(std::uint64_t& expected, std::uint64_t value) {
        const bool wins = word_ == expected;
        tell("exchange", word_, wins ? value : word_);
        expected = word_;
        if (wins) word_ = value;
        return wins;
    }

private:
    std::uint64_t tell(const char* what, std::uint64_t before, std::uint64_t after) const;
    std::uint64_t word_ = 0;
};

#define SHARED_WORD ToldWord
#include "dictionary.hpp"

namespace {

// How many words a node takes in the map whose steps are told.
Word node_size_told = 0;

std::string name(Word at) {
    const Word first_scx_word = node_size_told * (Tree::OPENING + SHARE);
    constexpr const char* of_node[] = {"head", "key", "value", "left", "right", "info", "marked", "more", "key1",
                                       "value1", "key2", "value2", "key3", "value3", "high", "high1", "high2", "high3"};
    constexpr const char* of_scx[] = {"state", "allfrozen", "plan", "new", "old", "v0",
                                      "v1", "v2", "v3", "i0", "i1", "i2", "i3", "call"};
    if (at < first_scx_word) return "n" + std::to_string(at / node_size_told) + "." + of_node[at % node_size_told];
    at -= first_scx_word;
    return "s" + std::to_string(at / SCX_WORDS) + "." + of_scx[at % SCX_WORDS];
}

// A number of up to two words.
Value number(const char* digits) {
    Value value = 0;
    for (; *digits; digits++) value = 10 * value + (*digits - '0');
    return value;
}

// One row of a script. Other rows than calls of a map do nothing.
template <class Map>
void make(const Map& map, Pass& pass, const char* row) {
    char command[16], first[40] = "", second[40] = "", third[40] = "";
    if (std::sscanf(row, "0,%15[a-z_],%39[0-9],%39[0-9],%39[0-9]", command, first, second, third) < 1) return;
    const std::string word = command;
    const Word a = Word(number(first));
    const Value b = number(second), c = number(third);
    if (word == "get") map.get(a);
    if (word == "insert") map.insert(pass, a, b);
    if (word == "insert_new") map.insert_new(pass, a, b);
    if (word == "delete") map.remove(pass, a);
    if (word == "delete_if") map.remove_if(pass, a, b);
    if (word == "pop_first") map.pop_first(pass);
    if (word == "pop_last") map.pop_last(pass);
    if (word == "replace_if") map.replace_if(pass, a, b, c);
    if (word == "successor") map.successor(a);
    if (word == "predecessor") map.predecessor(a);
    typename Map::RangeRoom room;
    if (word == "range") map.range(a, Word(b), Word(c), room);
}

// All rows of a script; that of its limits says what the client's share is.
template <class Map>
void make_all() {
    const Map map(1, 1000);
    Pass pass = map.pass(0);
    node_size_told = Map::NODE_SIZE;
    ToldWord::tells = true;
    char row[256];
    while (std::fgets(row, sizeof row, stdin)) {
        std::sscanf(row, "limits,%*u,%ju,%ju", &pass.nodes, &pass.scx);
        make(map, pass, row);
    }
}

}  // namespace

std::uint64_t ToldWord::tell(const char* what, std::uint64_t before, std::uint64_t after) const {
    if (tells) std::printf("%s %s %ju %ju\n", what, name(this - first).c_str(), before, after);
    return before;
}

int main(int count, char** words) {
    const std::string map = count > 1 ? words[1] : "";
    if (map == "tree") make_all<Tree>();
    else if (map == "trie") make_all<Trie>();
    else return 2;
}
