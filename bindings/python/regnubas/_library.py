"""The functions of libregnubas as regnubas.h declares them, and numbers as C has them."""
import ctypes
import operator
import os
import pathlib
from ctypes import POINTER, Structure, c_size_t, c_uint32, c_uint64, c_void_p


class RawPass(Structure):
    _fields_ = [("at", c_void_p), ("unused", c_uint64 * 7)]


class RawLimits(Structure):
    _fields_ = [("nodes", c_uint32), ("scx", c_uint32), ("tries", c_uint32)]


class Value(Structure):
    _fields_ = [("low", c_uint64), ("high", c_uint64)]


class Pair(Structure):
    _fields_ = [("key", c_uint64), ("value", Value)]


class Answer(Structure):
    _fields_ = [("value", Value), ("status", c_uint32)]


class Count(Structure):
    _fields_ = [("pairs", c_uint64), ("status", c_uint32)]


class Share(Structure):
    _fields_ = [("nodes", c_uint32), ("scx", c_uint32)]


def _path() -> str:
    """The file that REGNUBAS_LIBRARY names; the one in the wheel; the one that the loader finds."""
    named = os.environ.get("REGNUBAS_LIBRARY")
    beside = pathlib.Path(__file__).with_name("libregnubas.so.0")
    return named or (str(beside) if beside.exists() else beside.name)


def _load() -> ctypes.CDLL:
    library = ctypes.CDLL(_path())  # whose calls let go of the interpreter's lock
    one, room, word = POINTER(RawPass), POINTER(Pair), c_uint64
    for name, result, arguments in [
        ("make_of_pairs", c_uint32, [RawLimits, room, c_size_t, one, c_size_t]),
        ("make_trie_of_pairs", c_uint32, [RawLimits, room, c_size_t, one, c_size_t]),
        ("make_lasting", c_uint32, [RawLimits, one, c_size_t]),
        ("make_lasting_trie", c_uint32, [RawLimits, one, c_size_t]),
        ("get", Answer, [one, word]),
        ("insert", Answer, [one, word, Value]),
        ("insert_new", Answer, [one, word, Value]),
        ("delete", Answer, [one, word]),
        ("delete_if", Answer, [one, word, Value]),
        ("replace_if", Answer, [one, word, Value, Value]),
        ("pop_first", c_uint32, [one, room]),
        ("pop_last", c_uint32, [one, room]),
        ("successor", c_uint32, [one, word, room]),
        ("predecessor", c_uint32, [one, word, room]),
        ("range", Count, [one, word, word, room, c_size_t]),
        ("rest", c_uint32, [one, POINTER(c_uint32)]),
        ("away", c_uint32, [one]),
        ("back", c_uint32, [one]),
        ("left", Share, [one]),
        ("leave", None, [one]),
        ("close", Count, [one, room, c_size_t]),
    ]:
        call = getattr(library, "regnubas_" + name)
        call.restype, call.argtypes = result, arguments
    return library


library = _load()


def word(number: int, bits: int = 64) -> int:
    """The number, which ctypes would cut off."""
    number = operator.index(number)
    if not 0 <= number < 1 << bits:
        raise OverflowError(f"{number} is no number of {bits} bits")
    return number


def two_words(number: int) -> Value:
    """The number as C has it."""
    number = word(number, 128)
    return Value(number & (1 << 64) - 1, number >> 64)


def number(raw: Value) -> int:
    """The number that C has so."""
    return int(raw.high << 64 | raw.low)
