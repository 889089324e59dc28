"""An ordered dictionary that many threads read and change without locks. A key is a number below
2**64, a value one below 2**128.

>>> import regnubas
>>> one, other = regnubas.make(threads=2, changes=1000)
>>> one[5] = 50
>>> other[5], other.get(6), 6 in other
(50, None, False)

Each thread has a pass of its own, which is a `MutableMapping`. A call lets go of the interpreter's
lock; a pass that two threads use takes one call at a time. No call in the child of a fork of a
process with threads.

A call that other passes interfered with in each try raises `Contended` and has changed nothing.
What every mapping has (`m[5] = 50`, `del m[5]`, `pop`, ..), `replace`, and what goes through many
pairs call the library again by themselves; for other calls there is `again(m.insert, 5, 50)`. None
of these rests where the share is `Full`: `again` shows how to, where the dictionary lasts.

The library is the file that REGNUBAS_LIBRARY names, or the one that came with the wheel, or
libregnubas.so.0 as the loader finds it."""
from ._faults import BadLimits, Contended, Fault, Full, NoMemory, NoPass, NotRenewed, OutOfOrder
from ._faults import Shared, TooMany
from ._pass import MOST_KEY, MOST_VALUE, Pass, again, make, of_pairs

__all__ = [
    "MOST_KEY",
    "MOST_VALUE",
    "BadLimits",
    "Contended",
    "Fault",
    "Full",
    "NoMemory",
    "NoPass",
    "NotRenewed",
    "OutOfOrder",
    "Pass",
    "Shared",
    "TooMany",
    "again",
    "make",
    "of_pairs",
]
