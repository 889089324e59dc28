"""A pass: what a thread needs to make calls."""
from __future__ import annotations

import threading
from collections.abc import Callable, ItemsView, Iterable, Iterator, Mapping, MutableMapping
from collections.abc import ValuesView
from ctypes import Array, byref, c_uint32
from typing import Any, NoReturn, TypeVar, overload

from ._faults import Contended, Fault, NotRenewed, is_some
from ._library import Answer, Pair, RawLimits, RawPass, library, number, two_words, word
from ._views import Items, Values

MOST_KEY = 2**64 - 1
MOST_VALUE = 2**128 - 1
_CHUNK = 64  # the most pairs that one call of the library lists
_MOST_NODES = 32768
_NOTHING = object()

T = TypeVar("T")


def again(call: Callable[..., T], *arguments: Any) -> T:
    """Calls until other passes do not interfere: after `Contended` alone, and at once.

    >>> [m] = make(threads=1, changes=10)
    >>> again(m.insert, 5, 50)

    It never rests: `Full` is raised, as is all else. So where the dictionary lasts, each thread may
    rest after each ten calls, and where one is full, rest and call again:

    >>> import threading, time
    >>> from regnubas import Full
    >>> def set_(m, key, value):
    ...     '''Sets a key, and asks as often as it takes. `Full`: the share is too small.'''
    ...     alone = 0
    ...     while True:
    ...         try:
    ...             return again(m.insert, key, value)
    ...         except Full:
    ...             if alone == 8: # in a trie 8 + nodes // 64
    ...                 raise
    ...         if m.rest() is None:
    ...             alone += 1
    ...         else:
    ...             alone = 0
    ...             time.sleep(0) # another pass is to go on
    >>> def work(m, key):
    ...     with m: # at its end the pass leaves, so that no other waits for it
    ...         for number in range(1, 1001):
    ...             set_(m, key, number)
    ...             if number % 10 == 0:
    ...                 m.rest()
    >>> own, one, other = make(threads=3, nodes=64, scx=64, lasting=True)
    >>> own.away() # this thread only waits
    >>> threads = [threading.Thread(target=work, args=two) for two in ((one, 5), (other, 6))]
    >>> for thread in threads: thread.start()
    >>> for thread in threads: thread.join()
    >>> own.back(); own.close()
    [(5, 1000), (6, 1000)]
    """
    while True:
        try:
            return call(*arguments)
        except Contended:
            pass


def _value_of(answer: Answer) -> int | None:
    return number(answer.value) if is_some(answer.status) else None


class Pass(MutableMapping[int, int]):
    """What a thread needs to make calls; `make` makes it. One that is forgotten leaves, and so does
    one at the end of its `with`."""

    def __init__(self, most: int, trie: bool) -> None:
        # `most`: the pairs that the dictionary may have, since a new key takes a node at least; in one
        # that lasts a node comes back, and a leaf of one may have four pairs
        self._raw, self._most, self._trie, self._lock = RawPass(), most, trie, threading.Lock()

    def _call(self, call: Callable[..., Any], *arguments: Any) -> Any:
        with self._lock:
            return call(byref(self._raw), *arguments)

    # One call of the library each. These return what was there before, and may be `Contended`.

    def insert(self, key: int, value: int) -> int | None:
        """Sets a key to a value, and returns the value that the key had just before, or None.

        >>> [m] = make(threads=1, changes=10)
        >>> m.insert(5, 50), m.insert(5, 51)
        (None, 50)
        """
        return _value_of(self._call(library.regnubas_insert, word(key), two_words(value)))

    def insert_new(self, key: int, value: int) -> int | None:
        """Sets a key to a value if it has none: None; otherwise returns the value that it has.

        >>> [m] = make(threads=1, changes=10)
        >>> m.insert_new(5, 50), m.insert_new(5, 51), m[5]
        (None, 50, 50)
        """
        return _value_of(self._call(library.regnubas_insert_new, word(key), two_words(value)))

    def delete(self, key: int) -> int | None:
        """Removes a key, and returns the value that it had, or None.

        >>> [m] = make(threads=1, changes=10)
        >>> m[5] = 50
        >>> m.delete(5), m.delete(5)
        (50, None)
        """
        return _value_of(self._call(library.regnubas_delete, word(key)))

    def delete_if(self, key: int, expected: int) -> int | None:
        """Removes a key where it has the expected value, and returns the value that it had just
        before: it was removed where that is the one expected.

        >>> [m] = make(threads=1, changes=10)
        >>> m[5] = 50
        >>> m.delete_if(5, 49), m.delete_if(5, 50), m.delete_if(5, 50)
        (50, 50, None)
        """
        return _value_of(self._call(library.regnubas_delete_if, word(key), two_words(expected)))

    def replace_if(self, key: int, expected: int, value: int) -> int | None:
        """Sets a key to a value where it has the expected one, and returns the value that it had
        just before: it was replaced where that is the one expected.

        >>> [m] = make(threads=1, changes=10)
        >>> m[5] = 50
        >>> m.replace_if(5, 49, 51), m.replace_if(5, 50, 52), m[5]
        (50, 50, 52)
        """
        words = word(key), two_words(expected), two_words(value)
        return _value_of(self._call(library.regnubas_replace_if, *words))

    def _found(self, call: Callable[..., Any], *arguments: Any) -> tuple[int, int] | None:
        pair = Pair()
        found = is_some(self._call(call, *arguments, byref(pair)))
        return (pair.key, number(pair.value)) if found else None

    def pop_first(self) -> tuple[int, int] | None:
        """Removes the pair with the least key: it, or None.

        >>> [m] = make(threads=1, changes=10)
        >>> m.update({5: 50, 7: 70, 9: 90})
        >>> m.pop_first(), m.pop_last(), list(m)
        ((5, 50), (9, 90), [7])
        """
        return self._found(library.regnubas_pop_first)

    def pop_last(self) -> tuple[int, int] | None:
        """Removes the pair with the greatest key: it, or None."""
        return self._found(library.regnubas_pop_last)

    def successor(self, key: int) -> tuple[int, int] | None:
        """The pair with the least key above this one, or None.

        >>> [m] = make(threads=1, changes=10)
        >>> m.update({5: 50, 9: 90})
        >>> m.successor(5), m.successor(9)
        ((9, 90), None)
        """
        return self._found(library.regnubas_successor, word(key))

    def predecessor(self, key: int) -> tuple[int, int] | None:
        """The pair with the greatest key below this one, or None.

        >>> [m] = make(threads=1, changes=10)
        >>> m.update({5: 50, 9: 90})
        >>> m.predecessor(9), m.predecessor(5)
        ((5, 50), None)
        """
        return self._found(library.regnubas_predecessor, word(key))

    def _listed(self, call: Callable[..., Any], most: int, *arguments: int) -> list[tuple[int, int]]:
        room = (Pair * most)()
        count = self._call(call, *arguments, room, most)
        is_some(count.status)
        return [(pair.key, number(pair.value)) for pair in room[: count.pairs]]

    def range(self, low: int, high: int, most: int = _CHUNK) -> list[tuple[int, int]]:
        """The first pairs by rising key from `low` to `high`, both with them, all of one moment: at
        most `most`, and 64.

        >>> [m] = make(threads=1, changes=10)
        >>> m.update({5: 50, 7: 70, 9: 90})
        >>> m.range(6, 9), m.range(0, MOST_KEY, most=1)
        ([(7, 70), (9, 90)], [(5, 50)])
        """
        return self._listed(library.regnubas_range, min(most, _CHUNK), word(low), word(high))

    def rest(self) -> int | None:
        """Rests, between two calls, ten or a hundred of them, and after `Full`: the place of the
        pass that it waits for, among those that were made, from 0 on, or None. Either way it may go
        on. A pass of a dictionary that lasts that neither rests nor is away holds up all others;
        one of another dictionary waits for nobody.

        >>> one, other = make(threads=2, nodes=64, scx=64, lasting=True)
        >>> one.rest() # its whole share is left
        >>> one.update((5, time) for time in range(60))
        >>> one.rest(), other.away(), one.rest()
        (1, None, None)
        """
        other = c_uint32()
        found = is_some(self._call(library.regnubas_rest, byref(other)))
        return other.value if found else None

    def away(self) -> None:
        """Goes away, before a while without calls, so that no other pass waits for this one: until
        `back` each call raises `NoPass`, as does this one where the dictionary does not last.

        >>> one, other = make(threads=2, nodes=64, scx=64, lasting=True)
        >>> one.away(); other[5] = 50; one.back(); one[5]
        50
        """
        is_some(self._call(library.regnubas_away))

    def back(self) -> None:
        """Is back. `NoPass` where it was not away."""
        is_some(self._call(library.regnubas_back))

    def left(self) -> tuple[int, int]:
        """How many nodes and SCX-records are left of the pass's share; where the dictionary lasts,
        until a rest adds to it.

        >>> [m] = make(threads=1, nodes=300, scx=100)
        >>> m[5] = 50
        >>> m.left()
        (297, 99)
        """
        share = self._call(library.regnubas_left)
        return share.nodes, share.scx

    def leave(self) -> None:
        """Gives the pass up. The last to leave frees the dictionary."""
        self._call(library.regnubas_leave)

    def close(self) -> list[tuple[int, int]]:
        """Ends the dictionary by its last pass: all its pairs by rising key.

        >>> one, other = make(threads=2, changes=10)
        >>> one[5] = 50
        >>> one.leave()
        >>> other.close()
        [(5, 50)]
        """
        return self._listed(library.regnubas_close, self._most)

    def renew(
        self,
        threads: int,
        nodes: int | None = None,
        scx: int | None = None,
        tries: int = 100,
        *,
        changes: int | None = None,
        new_keys: int | None = None,
    ) -> list[Pass]:
        """Ends the dictionary by its last pass, and begins the next, of the same shape and never
        `lasting`, with its pairs. A pass for each thread; limits as of `make`. Where the next is
        refused, `NotRenewed` has the pairs.

        >>> [m] = make(threads=1, changes=1)
        >>> m[5] = 50
        >>> one, other = m.renew(threads=2, changes=10)
        >>> other[5], one.left()
        (50, (60, 20))
        """
        each = _limits(nodes, scx, tries, changes, new_keys)
        threads, pairs = word(threads, 16), self.close()
        try:
            return _begun(threads, each, pairs, self._trie)
        except (Fault, MemoryError) as fault:
            raise NotRenewed(pairs) from fault

    # What a mapping has. Each of these is one call of the library, but those that say otherwise,
    # and calls again while others interfere.

    @overload
    def get(self, key: int) -> int | None: ...
    @overload
    def get(self, key: int, default: int | T) -> int | T: ...
    def get(self, key: int, default: Any = None) -> Any:
        """The value of a key, or the default. It is never refused.

        >>> [m] = make(threads=1, changes=10)
        >>> m[5] = 50
        >>> m.get(5), m.get(6), m.get(6, 0)
        (50, None, 0)
        """
        found = _value_of(self._call(library.regnubas_get, word(key)))
        return default if found is None else found

    def __getitem__(self, key: int) -> int:
        found = self.get(key)
        if found is None:
            raise KeyError(key)
        return found

    def __contains__(self, key: object) -> bool:
        return self.get(key) is not None  # type: ignore[call-overload]

    def __setitem__(self, key: int, value: int) -> None:
        again(self.insert, key, value)

    def __delitem__(self, key: int) -> None:
        self.pop(key)

    def setdefault(self, key: int, default: int) -> int:  # type: ignore[override]
        """The value of a key, which is set to the default if it has none.

        >>> [m] = make(threads=1, changes=10)
        >>> m.setdefault(5, 50), m.setdefault(5, 51)
        (50, 50)
        """
        found = again(self.insert_new, key, default)
        return default if found is None else found

    @overload
    def pop(self, key: int) -> int: ...
    @overload
    def pop(self, key: int, default: int | T) -> int | T: ...
    def pop(self, key: int, default: Any = _NOTHING) -> Any:
        """Removes a key: the value that it had, or the default; without one a KeyError.

        >>> [m] = make(threads=1, changes=10)
        >>> m[5] = 50
        >>> m.pop(5), m.pop(5, None)
        (50, None)
        """
        found = again(self.delete, key)
        if found is not None:
            return found
        if default is _NOTHING:
            raise KeyError(key)
        return default

    def popitem(self, last: bool = True) -> tuple[int, int]:
        """Removes the pair with the greatest key, or that with the least; a KeyError if there is
        none.

        >>> [m] = make(threads=1, changes=10)
        >>> m.update({5: 50, 7: 70, 9: 90})
        >>> m.popitem(), m.popitem(last=False), m.popitem()
        ((9, 90), (5, 50), (7, 70))
        """
        pair = again(self.pop_last if last else self.pop_first)
        if pair is None:
            raise KeyError("popitem: the dictionary is empty")
        return pair

    def replace(self, key: int, expected: int, value: int) -> bool:
        """Sets a key to a value where it has the expected one: whether it had it.

        >>> [m] = make(threads=1, changes=10)
        >>> m[5] = 50
        >>> m.replace(5, 50, 51), m.replace(5, 50, 52), m[5]
        (True, False, 51)
        """
        return again(self.replace_if, key, expected, value) == expected

    def _pairs(self, low: int = 0, high: int = MOST_KEY) -> Iterator[tuple[int, int]]:
        while low <= high:
            chunk = again(self.range, low, high)
            yield from chunk
            if len(chunk) < _CHUNK:
                return
            low = chunk[-1][0] + 1

    def irange(self, minimum: int = 0, maximum: int = MOST_KEY) -> Iterator[int]:
        """The keys from `minimum` to `maximum`, both with them, by rising key. They are read 64 at
        a time: those of one such chunk are of one moment, two chunks are not.

        >>> [m] = make(threads=1, changes=10)
        >>> m.update({5: 50, 7: 70, 9: 90})
        >>> list(m.irange(5, 8)), list(m)
        ([5, 7], [5, 7, 9])
        """
        return (key for key, _ in self._pairs(minimum, maximum))

    def __iter__(self) -> Iterator[int]:
        return self.irange()

    def items(self) -> ItemsView[int, int]:
        """The pairs by rising key, read 64 at a time: those of one such chunk are of one moment,
        two chunks are not.

        >>> [m] = make(threads=1, changes=10)
        >>> m.update({9: 90, 5: 50})
        >>> list(m.items())
        [(5, 50), (9, 90)]
        """
        return Items(self)

    def values(self) -> ValuesView[int]:
        """The values by rising key, read as `items` are."""
        return Values(self)

    def __len__(self) -> int:
        """How many pairs `items` finds. It goes through all of them: the dictionary keeps no
        count."""
        return sum(1 for _ in self._pairs())

    def __bool__(self) -> bool:
        """Whether there is a pair. It reads one."""
        return bool(again(self.range, 0, MOST_KEY, 1))

    # The end of a pass.

    def __enter__(self) -> Pass:
        return self

    def __exit__(self, *fault: object) -> None:
        self.leave()

    def __reduce__(self) -> NoReturn:
        raise TypeError("a pass can be neither copied nor pickled")

    def __del__(self, leave: Callable[..., Any] = library.regnubas_leave) -> None:
        leave(byref(self._raw))


def _share(changes: int, new_keys: int | None) -> tuple[int, int]:
    """The nodes and SCX-records for these changes, and as many again for tries that are lost."""
    if new_keys is None:
        new_keys = changes
    nodes, scx = changes + 2 * new_keys, changes
    return max(nodes, min(2 * nodes, _MOST_NODES)), max(scx, min(2 * scx, _MOST_NODES))


def _limits(
    nodes: int | None, scx: int | None, tries: int, changes: int | None, new_keys: int | None
) -> RawLimits:
    """The limits that a caller asks for."""
    if changes is not None:
        if nodes is not None or scx is not None:
            raise TypeError("either changes, or nodes and scx")
        nodes, scx = _share(word(changes, 32), None if new_keys is None else word(new_keys, 32))
    elif nodes is None or scx is None or new_keys is not None:
        raise TypeError("either changes, or nodes and scx")
    return RawLimits(word(nodes, 32), word(scx, 32), word(tries, 32))


def _begun(threads: int, each: RawLimits, pairs: list[tuple[int, int]], trie: bool) -> list[Pass]:
    """The passes of a dictionary that begins with these pairs."""
    begin = library.regnubas_make_trie_of_pairs if trie else library.regnubas_make_of_pairs
    raw, room = (RawPass * threads)(), (Pair * len(pairs))()
    for place, (key, value) in zip(room, pairs):
        place.key, place.value = word(key), two_words(value)
    is_some(begin(each, room, len(pairs), raw, threads))
    return _passes_of(raw, threads * each.nodes + len(pairs), trie)


def _lasting(threads: int, each: RawLimits, trie: bool) -> list[Pass]:
    """The passes of a dictionary that lasts."""
    begin = library.regnubas_make_lasting_trie if trie else library.regnubas_make_lasting
    raw = (RawPass * threads)()
    is_some(begin(each, raw, threads))
    return _passes_of(raw, 2 * threads * each.nodes, trie)


def _passes_of(raw: Array[RawPass], most: int, trie: bool) -> list[Pass]:
    """The passes that C has made."""
    made = [Pass(most, trie) for _ in raw]
    for own, old in zip(made, raw):
        own._raw.at, old.at = old.at, None
    return made


def make(
    threads: int,
    nodes: int | None = None,
    scx: int | None = None,
    tries: int = 100,
    *,
    changes: int | None = None,
    new_keys: int | None = None,
    trie: bool = False,
    lasting: bool = False,
) -> list[Pass]:
    """A dictionary with a pass for each thread, 1 to 32.

    `changes` is how many changes each thread makes in the life of the dictionary, `new_keys` how
    many of them give a value to a key that has none (all of them, if it is left out). A change
    takes an SCX-record and a node, that of a new key up to three nodes. What they take is doubled,
    up to the 32,768 that a pass can have, since a try that is lost to another thread takes as much.

    >>> [m] = make(threads=1, changes=100, new_keys=10)
    >>> m.left()
    (240, 200)

    Or give the `nodes` and SCX-records (`scx`) of each pass yourself, 0 to 32,768 each.

    After `tries` lost tries, 1 to 1,000, a change, a `successor`, a `predecessor` or a `range` is
    `Contended`. A try is lost where a change by another pass was in the way, and may have taken as
    much as one that is done. The number has no effect on `get`, `m[key]` and `key in m`, which read
    nothing twice, nor where the dictionary lasts, which also asks for one in this range: there a
    call makes one try.

    A `trie` stays low also where keys come in order.

    >>> [m] = make(threads=1, changes=1000, trie=True)
    >>> m.update((key, 50) for key in range(1000))
    >>> m.pop_first()
    (0, 50)

    Where it is `lasting`, what its passes have used up comes back to them as they `rest`.

    >>> [m] = make(threads=1, nodes=64, scx=64, lasting=True)
    >>> for time in range(1000): m[5] = time; m.rest()
    >>> m[5]
    999

    Its limits have the same ranges, but are of what is in use at a time: the nodes of the map that
    the pass has made, the SCX-records of its changes that were the last at a node of the map, and
    what has not come back yet, which is what it takes in four rests or more. So give `nodes` and
    `scx`, not `changes`: ten times a pass's part of the pairs, and no less than its calls take in
    four rests. With fewer than three nodes no first key goes in.

    After `Contended` call again at once; after `Full` rest, and call again: the example at `again`
    does both. What is dead by then comes back in some four rests, if these wait for nobody; in a
    trie, what pops leave may take one more for each 64 nodes of the share. `rest` says for which
    pass it waits: until that one rests, goes away or leaves, nothing comes back. A call that stays
    `Full` while rests wait for nobody needs a larger share.

    It may have more pairs than there are nodes, since a leaf is one node and has up to four pairs:
    `close` and `renew` take room for 2 * threads * nodes pairs, 24 bytes each, and for their lists.

    The table takes, with n = 3 + threads * nodes and s = 1 + threads * scx, and with A and B, the
    least powers of two above these, 8 * max(18 * A, 18 * n + 14 * B) bytes, or up to 2 KB more; in
    a trie 24 for 18. That is 386 MB at most, in a trie 436 MB. While it is made it takes up to
    three times that. Besides, a pass keeps a number and a byte for each of its nodes and
    SCX-records. `close` takes 8 * (18 * n + 14 * s) bytes more.

    A pass can go round its share 2**28 times at least (2**20 is proved); then it stays `Full`.
    """
    each = _limits(nodes, scx, tries, changes, new_keys)
    if lasting:
        return _lasting(word(threads, 16), each, trie)
    return _begun(word(threads, 16), each, [], trie)


def of_pairs(
    pairs: Mapping[int, int] | Iterable[tuple[int, int]],
    threads: int,
    nodes: int | None = None,
    scx: int | None = None,
    tries: int = 100,
    *,
    changes: int | None = None,
    new_keys: int | None = None,
    trie: bool = False,
) -> list[Pass]:
    """A dictionary that begins with these pairs, each key above the one before; else as `make`. Its
    tree is balanced, and nothing of a pass's share is taken for it. There is room for 2**20 nodes in
    all: those of the passes, and two for each four pairs, in a trie up to two for each.

    >>> [m] = of_pairs([(5, 50), (9, 90)], threads=1, changes=10)
    >>> m.successor(5), m.left()
    ((9, 90), (60, 20))
    """
    each = _limits(nodes, scx, tries, changes, new_keys)
    items = pairs.items() if isinstance(pairs, Mapping) else pairs
    return _begun(word(threads, 16), each, list(items), trie)
