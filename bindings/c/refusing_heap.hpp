// A heap in the place of what the library asks of malloc. It counts its blocks, and refuses one
// allocation, or that and all after it.
#ifndef REFUSING_HEAP_HPP
#define REFUSING_HEAP_HPP

#include <cstddef>
#include <cstdint>
#include <cstdlib>

static long refuse = 0, asked = 0, blocks = 0; // the refuse-th is refused; 0: none
static bool onwards = false;                   // and those after it

static bool is_refused() {
    asked++;
    return refuse != 0 && (onwards ? asked >= refuse : asked == refuse);
}

struct tried {
    std::uint64_t ok;
    void *p;
};

extern "C" tried rattle_alloc(std::size_t n, std::size_t a) {
    static char nowhere;
    if (is_refused()) return {0, &nowhere};
    blocks++;
    return {1, std::malloc(n != 0 ? n : a)};
}

extern "C" tried rattle_realloc(void *p, std::size_t, std::size_t n, std::size_t a) {
    static char nowhere;
    if (is_refused()) return {0, &nowhere};
    return {1, std::realloc(p, n != 0 ? n : a)};
}

extern "C" void rattle_dealloc(void *p) {
    blocks--;
    std::free(p);
}

#endif
