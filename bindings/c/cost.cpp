// The works of `crates/bench` on a tree of 1,000 keys with one thread, through the header and by the
// same draws, so that the instructions of a round can be set beside those of Rattle's own calls:
//   cost get|insert|insert_new|delete|delete_if|replace|pop|pop_last|succ|pred|range64 CALLS
#include "regnubas.h"

#include <cinttypes>
#include <cstdio>
#include <cstdlib>
#include <string>

namespace {

constexpr uint64_t KEYS = 1000;

struct Draws {
    uint64_t state;
    explicit Draws(uint64_t stream) : state(88172645463325252u ^ stream * 11400714819323198485u) {}
    uint64_t below(uint64_t bound) {
        state ^= state << 13;
        state ^= state >> 7;
        state ^= state << 17;
        return state % bound;
    }
};

uint64_t checksum = 0;

void tell(uint64_t reply) { checksum = checksum * 31 + reply; }
void tell(regnubas_answer answer) { tell(answer.status == REGNUBAS_SOME ? answer.value.low + 1 : 0); }
void tell(uint32_t status, regnubas_pair pair) { tell(uint64_t(status == REGNUBAS_SOME ? pair.key + pair.value.low + 1 : 0)); }
regnubas_value value(uint64_t low) { return {low, 0}; }

template <typename Round> void rounds(uint32_t calls, Round round) {
    Draws draws(32);
    for (uint32_t call = 0; call < calls; call++) round(draws.below(KEYS), call);
}

} // namespace

int main(int argc, char **argv) {
    if (argc != 3) return 2;
    std::string work = argv[1];
    uint32_t calls = std::strtoul(argv[2], nullptr, 10);
    regnubas_pass passes[2] = {};
    regnubas_pass *pass = &passes[0];
    regnubas_pair pair = {}, pairs[64] = {};
    if (regnubas_make({32768, 32768, 1000}, passes, 2) != REGNUBAS_NONE) return 3;
    Draws draws(0);
    for (uint64_t left = KEYS / 2; left > 0;) {
        uint64_t key = draws.below(KEYS);
        if (regnubas_get(&passes[1], key).status == REGNUBAS_NONE) left -= regnubas_insert(&passes[1], key, value(key)).status == REGNUBAS_NONE;
    }
    if (work == "get") rounds(calls, [&](uint64_t key, uint64_t) { tell(regnubas_get(pass, key)); });
    else if (work == "insert") rounds(calls, [&](uint64_t key, uint64_t call) { tell(regnubas_insert(pass, key, value(call))); });
    else if (work == "insert_new") rounds(calls, [&](uint64_t key, uint64_t call) { tell(regnubas_insert_new(pass, key, value(call))); });
    else if (work == "delete") rounds(calls, [&](uint64_t key, uint64_t) { tell(regnubas_delete(pass, key)); });
    else if (work == "delete_if") rounds(calls, [&](uint64_t key, uint64_t) { tell(regnubas_delete_if(pass, key, value(key))); });
    else if (work == "replace") rounds(calls, [&](uint64_t key, uint64_t) { tell(regnubas_replace_if(pass, key, value(key), value(key))); });
    else if (work == "pop") rounds(calls, [&](uint64_t, uint64_t) { tell(regnubas_pop_first(pass, &pair), pair); });
    else if (work == "pop_last") rounds(calls, [&](uint64_t, uint64_t) { tell(regnubas_pop_last(pass, &pair), pair); });
    else if (work == "succ") rounds(calls, [&](uint64_t key, uint64_t) { tell(regnubas_successor(pass, key, &pair), pair); });
    else if (work == "pred") rounds(calls, [&](uint64_t key, uint64_t) { tell(regnubas_predecessor(pass, key, &pair), pair); });
    else if (work == "range64")
        rounds(calls, [&](uint64_t key, uint64_t) {
            regnubas_count count = regnubas_range(pass, key, UINT64_MAX, pairs, 64);
            for (uint64_t i = 0; i < count.pairs; i++) tell(pairs[i].key + pairs[i].value.low + 1);
        });
    else return 2;
    std::printf("%" PRIu64 "\n", checksum);
    return 0;
}
