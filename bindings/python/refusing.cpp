// The library with a heap that refuses what a test of Python asks it to.
#include "refusing_heap.hpp"

// From now on this allocation is refused, the first being 1; 0: none.
extern "C" void refusing_refuse(long which) {
    asked = 0;
    refuse = which;
}
extern "C" long refusing_asked() { return asked; }
extern "C" long refusing_blocks() { return blocks; }
