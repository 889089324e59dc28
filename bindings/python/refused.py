"""Each allocation of the library is refused in turn: the call raises `NoMemory`, or does without;
nothing leaks, and the dictionary is as it was. REGNUBAS_LIBRARY names what was made of
refusing.cpp."""
import ctypes
import gc
import os

import regnubas

heap = ctypes.CDLL(os.environ["REGNUBAS_LIBRARY"])


def story():
    """Whether all was done."""
    refused = 0
    one, other = regnubas.make(threads=2, changes=90)
    for key in range(90):
        one[2 * key] = key
    for key in range(0, 89, 9):
        try:
            assert other.successor(2 * key) == (2 * key + 2, key + 1)
        except regnubas.NoMemory:
            refused += 1
        try:
            assert other.predecessor(2 * key + 1) == (2 * key, key)
        except regnubas.NoMemory:
            refused += 1
        try:
            assert list(other.irange(2 * key)) == list(range(2 * key, 180, 2))
        except regnubas.NoMemory:
            refused += 1
        assert other[2 * key] == key
    other.leave()
    try:
        assert one.close() == [(2 * key, key) for key in range(90)]
    except regnubas.NoMemory:
        refused += 1
    return refused == 0


def renewed():
    """The same of one that begins with pairs, and is renewed."""
    pairs = [(2 * key, key << 70) for key in range(9)]
    [one] = regnubas.of_pairs(pairs, threads=1, changes=10)
    try:
        one, other = one.renew(threads=2, changes=5)
    except regnubas.NotRenewed as fault:
        assert fault.pairs == pairs and isinstance(fault.__cause__, regnubas.NoMemory)
        return False
    assert list(other.items()) == pairs
    return True


def is_done(tale, which):
    heap.refusing_refuse(which)
    try:
        return tale()
    except regnubas.NoMemory:  # by `make`, or in an end
        return False
    finally:
        gc.collect()
        assert heap.refusing_blocks() == 0


for tale in story, renewed:
    assert is_done(tale, 0)
    asked = heap.refusing_asked()
    without = sum(is_done(tale, which) for which in range(1, asked + 1))
    print(f"ok: {asked} allocations, each refused in turn; {without} of them could be done without")
