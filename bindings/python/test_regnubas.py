"""The module beside a dict, four threads on one dictionary, and what is refused: by pytest, or as a
program, which may be given names of tests."""
import copy
import doctest
import pickle
import random
import sys
import threading

import regnubas
import regnubas._pass
from regnubas import again

THREADS, KEYS, MOST, WIDEST = 4, 1000, 2**64 - 1, 2**128 - 1


def value_of(key):
    """The value that a key is given here: it has bits in both its words."""
    return (MOST - key) << 64 | key + 7


def refused(fault, call, *arguments, **named):
    try:
        call(*arguments, **named)
    except fault:
        return
    raise AssertionError(f"not refused as {fault.__name__}")


def work(number, one, failures):
    try:
        for key in range(number, KEYS * THREADS, THREADS):
            assert again(one.insert, key, WIDEST) is None
            assert again(one.replace_if, key, MOST, 0) == WIDEST
            assert again(one.replace_if, key, WIDEST, value_of(key)) == WIDEST
            assert one.get(key) == value_of(key)
        for key in range(number, KEYS * THREADS, THREADS * 3):
            assert again(one.insert_new, key, 0) == value_of(key)
            assert again(one.delete_if, key, 0) == value_of(key)
            assert again(one.delete_if, key, value_of(key)) == value_of(key)
            assert again(one.insert_new, key, 0) is None
            assert again(one.delete, key) == 0
            assert one.get(key) is None
            found = again(one.successor, key)
            assert found is None or found[0] > key
            found = again(one.predecessor, key)
            assert found is None or found[0] < key
            pairs = again(one.range, key, MOST, 16)
            assert pairs == sorted(pairs) and all(k > key for k, _ in pairs)
    except BaseException as failure:
        failures.append(failure)


def test_four_threads_and_a_close():
    for trie in False, True:
        four_threads_and_a_close(regnubas.make(THREADS, nodes=32768, scx=32768, tries=100, trie=trie))


def four_threads_and_a_close(passes):
    failures = []
    threads = [threading.Thread(target=work, args=(t, passes[t], failures)) for t in range(THREADS)]
    for thread in threads:
        thread.start()
    for thread in threads:
        thread.join()
    assert not failures, failures
    refused(regnubas.Shared, passes[0].close)
    for one in passes[1:]:
        one.leave()
        refused(regnubas.NoPass, one.get, 1)
    left = [(k, value_of(k)) for k in range(THREADS * KEYS) if (k // THREADS) % 3 != 0]
    assert passes[0].pop_first() == left[0]
    assert passes[0].pop_last() == left[-1]
    assert passes[0].close() == left[1:-1]


def turn_over(time, number, one, sums, failures):
    """Puts fresh keys in, and takes each third out."""
    try:
        for i in range(200):
            key = (time * 200 + i) * THREADS + number
            assert again(one.insert, key, value_of(key)) is None
            if i % 3 == 0:
                assert again(one.delete, key) == value_of(key)
            else:
                sums[number] += key
    except BaseException as failure:
        failures.append(failure)


def test_ten_renewals():
    """Ten times four threads work, and it is renewed: what is left went in and did not come out."""
    limits = {"nodes": 8000, "scx": 4000, "tries": 100}
    for trie in False, True:
        passes = regnubas.make(THREADS, trie=trie, **limits)
        failures, sums = [], [0] * THREADS
        for time in range(10):
            threads = [
                threading.Thread(target=turn_over, args=(time, t, passes[t], sums, failures))
                for t in range(THREADS)
            ]
            for thread in threads:
                thread.start()
            for thread in threads:
                thread.join()
            assert not failures, failures
            refused(regnubas.Shared, passes[0].renew, THREADS, **limits)
            for one in passes[1:]:
                one.leave()
            passes = passes[0].renew(THREADS, **limits)
            pairs = list(passes[1].items())
            assert sum(key for key, _ in pairs) == sum(sums)
            assert all(value == value_of(key) for key, value in pairs)
        # of the shape that it was: beside a full leaf a key takes three nodes, in a trie a far one two
        passes[0][2**63] = 6
        assert passes[0].left()[0] == 8000 - (2 if trie else 3)
        for one in passes[1:]:
            one.leave()
        pairs = list(passes[0].items())
        try:
            passes[0].renew(33, **limits)
        except regnubas.NotRenewed as fault:
            assert fault.pairs == pairs and isinstance(fault.__cause__, regnubas.BadLimits)
        else:
            raise AssertionError("renewed")
        refused(regnubas.NoPass, passes[0].renew, 1, **limits)


def test_pairs_to_begin_with():
    for count in 0, 1, 4, 5, 100, 10000:
        for trie in False, True:
            pairs = [(3 * i, value_of(3 * i)) for i in range(count)]
            one, other = regnubas.of_pairs(pairs, 2, nodes=30, scx=10, tries=1, trie=trie)
            assert one.left() == (30, 10) and list(other.items()) == pairs and 1 not in one
            one[1] = 1
            other.leave()
            assert one.close() == sorted(pairs + [(1, 1)])
    [one] = regnubas.of_pairs({5: 50, 9: 2**127}, threads=1, changes=1)
    assert one == {5: 50, 9: 2**127}
    for trie in False, True:
        named = {"scx": 1, "tries": 1, "trie": trie}
        refused(regnubas.OutOfOrder, regnubas.of_pairs, [(1, 1), (1, 2)], 1, nodes=1, **named)
        refused(regnubas.TooMany, regnubas.of_pairs, [(1, 1)], 32, nodes=32768, **named)
        refused(regnubas.BadLimits, regnubas.of_pairs, [(1, 1)], 33, nodes=1, **named)
        refused(regnubas.BadLimits, regnubas.of_pairs, [(1, 1)], 0, nodes=1, **named)
        refused(OverflowError, regnubas.of_pairs, [(2**64, 1)], 1, nodes=1, **named)
        refused(OverflowError, regnubas.of_pairs, [(1, 2**128)], 1, nodes=1, **named)
        refused(TypeError, regnubas.of_pairs, [(1, 1)], 1, changes=1, nodes=1, **named)


def test_a_far_key_takes_two_nodes_in_a_trie():
    for trie, nodes in (False, 1), (True, 2):
        [one] = regnubas.make(1, nodes=20, scx=20, tries=1, trie=trie)
        for key in range(1, 6):
            one[key] = key
        before, _ = one.left()
        one[2**63] = 6
        assert before - one.left()[0] == nodes


def test_what_is_refused():
    refused(regnubas.BadLimits, regnubas.make, 33, nodes=1, scx=1, tries=1)
    refused(OverflowError, regnubas.make, 1, nodes=2**32, scx=1, tries=1)
    refused(regnubas.BadLimits, regnubas.make, 1, changes=40000, new_keys=0)
    refused(regnubas.BadLimits, regnubas.make, 1, changes=20000, new_keys=20000)
    for named in {}, {"nodes": 1}, {"changes": 1, "scx": 1}, {"nodes": 1, "scx": 1, "new_keys": 1}:
        refused(TypeError, regnubas.make, 1, **named)
    [one] = regnubas.make(1, nodes=3, scx=1, tries=1)
    assert one.pop_first() is None and one.pop_last() is None and one.left() == (3, 1)
    for call in one.get, one.pop, one.__contains__, one.__getitem__, one.successor, one.predecessor, one.delete:
        refused(OverflowError, call, 2**64)
        refused(OverflowError, call, -1)
        refused(TypeError, call, "5")
        refused(TypeError, call, 5.0)
    refused(OverflowError, one.insert, 2**64, 1)
    for value in 2**128, -1:
        refused(OverflowError, one.insert, 1, value)
        refused(OverflowError, one.replace_if, 1, value, 1)
        refused(OverflowError, one.replace_if, 1, 1, value)
    assert one.insert(MOST, WIDEST) is None and one.get(MOST) == WIDEST
    refused(regnubas.Full, one.delete, MOST)
    for call in copy.copy, copy.deepcopy, pickle.dumps:
        refused(TypeError, call, one)
    one.leave()
    refused(regnubas.NoPass, one.popitem)


def drawn_key():
    key = random.randrange(40)
    return key if key % 2 else MOST - key


def both(one, mirror, call, *arguments):
    """Asks both the same, and compares what they answer, or the exceptions that they raise."""
    answers = []
    for asked in one, mirror:
        try:
            answers.append(getattr(asked, call)(*arguments))
        except KeyError:
            answers.append(KeyError)
    assert answers[0] == answers[1], (call, arguments, answers)


def test_a_mapping():
    random.seed(5)
    [one] = regnubas.make(threads=1, changes=8000)
    mirror = {}
    for _ in range(4000):
        key, value = drawn_key(), random.randrange(3) << 64 | random.randrange(3)
        call = random.choice(
            [
                ("__setitem__", key, value),
                ("__delitem__", key),
                ("__getitem__", key),
                ("__contains__", key),
                ("get", key),
                ("get", key, "none"),
                ("setdefault", key, value),
                ("pop", key),
                ("pop", key, None),
                ("update", {key: value, key ^ 1: value}),
                ("__len__",),
                ("__eq__", dict(mirror)),
            ]
        )
        both(one, mirror, *call)
        assert one.replace(key, value, 7) == (mirror.get(key) == value)
        if mirror.get(key) == value:
            mirror[key] = 7
        assert bool(one) == bool(mirror)
        assert list(one.items()) == sorted(mirror.items())
    assert one.popitem() == max(mirror.items())
    assert one.popitem(last=False) == min(mirror.items())
    one.clear()
    assert not one and len(one) == 0
    refused(KeyError, one.popitem)
    refused(KeyError, one.popitem, last=False)


def test_going_through_pairs():
    for count in 0, 1, 63, 64, 65, 128, 129, 500:
        keys = random.sample(range(1000), count)
        keys = [key if key % 2 else MOST - key for key in keys]
        [one] = regnubas.make(threads=1, changes=count, trie=count % 2 == 1)
        for key in keys:
            one[key] = value_of(key)
        keys.sort()
        pairs = [(key, value_of(key)) for key in keys]
        assert list(one) == list(one.keys()) == keys and len(one) == count
        assert list(one.items()) == pairs and list(one.values()) == [value for _, value in pairs]
        assert one.keys() == set(keys) and one.items() == set(pairs)
        assert all(value in one.values() for _, value in pairs[:2]) and 1 not in one.values()
        for low, high in (0, MOST), (100, 900), (MOST - 300, MOST), (MOST, MOST), (9, 5):
            assert list(one.irange(low, high)) == [key for key in keys if low <= key <= high]
        assert list(one.irange(500)) == [key for key in keys if key >= 500]
    [one] = regnubas.make(threads=1, changes=64)
    one.update((key, 0) for key in range(MOST - 63, MOST + 1))
    assert len(one) == 64 and list(one.irange(MOST - 9, MOST - 3)) == list(range(MOST - 9, MOST - 2))


def test_limits():
    for changes, new_keys, nodes, scx in [
        (0, None, 0, 0),
        (100, None, 600, 200),
        (100, 10, 240, 200),
        (20000, 10, 32768, 32768),
        (32748, 10, 32768, 32768),
    ]:
        [one] = regnubas.make(threads=1, changes=changes, new_keys=new_keys)
        assert one.left() == (nodes, scx)


def test_a_pass_leaves_after_its_with():
    one, other = regnubas.make(threads=2, changes=9)
    with one:
        one[5] = 50
        refused(regnubas.Shared, other.close)
    refused(regnubas.NoPass, one.get, 5)
    assert other.close() == [(5, 50)]


def turn_about(key, one, failures):
    try:
        for time in range(3000):
            while True:
                try:
                    one.insert(key, time)
                    break
                except (regnubas.Contended, regnubas.Full):
                    one.rest()
            one.rest()
        one.leave()
    except BaseException as failure:
        failures.append(failure)


def test_one_that_lasts():
    """Far more changes than a share has room for; the last pass is away meanwhile."""
    for trie in False, True:
        passes, failures = regnubas.make(threads=4, nodes=64, scx=64, trie=trie, lasting=True), []
        own = passes.pop()
        refused(regnubas.NoPass, own.back)
        own.away()
        refused(regnubas.NoPass, own.away)
        refused(regnubas.NoPass, own.get, 1)
        threads = [threading.Thread(target=turn_about, args=(t, passes[t], failures)) for t in range(3)]
        for thread in threads:
            thread.start()
        for thread in threads:
            thread.join()
        assert not failures, failures
        own.back()
        assert own[1] == 2999 and own.rest() is None
        assert own.close() == [(key, 2999) for key in range(3)]
    [one] = regnubas.make(threads=1, changes=10)
    refused(regnubas.NoPass, one.away)
    assert one.rest() is None


def test_more_pairs_than_nodes():
    """A leaf of four pairs is one node, and what it replaced comes back."""
    [one] = regnubas.make(threads=1, nodes=9, scx=9, trie=True, lasting=True)
    for key in range(12):
        one[key] = 50
        for _ in range(8):
            one.rest()
    assert one.close() == [(key, 50) for key in range(12)]


def test_threads_may_share_a_pass():
    """Eight threads of Python add up in one key, with two passes: four take turns on each."""
    passes = regnubas.make(threads=2, changes=8000, new_keys=200)
    failures = []

    def add(one):
        try:
            for _ in range(500):
                while not one.replace(1, seen := one[1], seen + 1):
                    pass
                assert len(again(one.range, 1, MOST)) == 64
        except BaseException as failure:
            failures.append(failure)

    passes[0].update((key, 2**64 - 5) for key in range(200))
    threads = [threading.Thread(target=add, args=(passes[t % 2],)) for t in range(8)]
    for thread in threads:
        thread.start()
    for thread in threads:
        thread.join()
    assert not failures, failures
    assert passes[1][1] == 2**64 - 5 + 4000


def test_examples():
    for module in regnubas, regnubas._pass:
        failed, tried = doctest.testmod(module)
        assert tried > 0 and failed == 0


if __name__ == "__main__":
    for name in sys.argv[1:] or [name for name in dir() if name.startswith("test_")]:
        globals()[name]()
        print("ok:", name)
