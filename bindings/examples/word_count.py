"""word_count.py FILE: four threads count the words of a text in one dictionary, and then in a dict
with a lock. It prints the twenty most frequent words with both counts, and how long each way took:
the least of five rounds.

A key is the first twelve letters of a word, five bits each: so keys have the order of words."""
import re
import sys
import threading
import time

import regnubas
from regnubas import again

THREADS, ROUNDS, LETTERS, SHOWN = 4, 5, 12, 20


def key_of(word):
    key = 0
    for letter in word[:LETTERS].ljust(LETTERS, "\0"):
        key = key << 5 | ord(letter) & 31
    return key


def word_of(key):
    letters = (key >> 5 * i & 31 for i in reversed(range(LETTERS)))
    return "".join(chr(ord("a") - 1 + letter) for letter in letters if letter)


def in_threads(words, count):
    """Four threads each count a part of the words by `count(thread, word)`: the seconds that it
    took."""

    def work(number):
        for word in words[len(words) * number // THREADS : len(words) * (number + 1) // THREADS]:
            count(number, word)

    threads = [threading.Thread(target=work, args=(number,)) for number in range(THREADS)]
    start = time.perf_counter()
    for thread in threads:
        thread.start()
    for thread in threads:
        thread.join()
    return time.perf_counter() - start


def count_shared(words):
    passes = regnubas.make(THREADS, changes=len(words) // THREADS + 1)

    def count_up(number, word):
        counts = passes[number]
        seen = again(counts.insert_new, word, 1)
        while seen is not None:
            found = again(counts.replace_if, word, seen, seen + 1)
            if found == seen:
                return
            seen = found

    seconds = in_threads(words, count_up)
    return dict(passes[0].items()), seconds


def count_locked(words):
    counts, lock = {}, threading.Lock()

    def count_up(_, word):
        with lock:
            counts[word] = counts.get(word, 0) + 1

    seconds = in_threads(words, count_up)
    return counts, seconds


def main():
    if len(sys.argv) != 2:
        sys.exit(__doc__)
    with open(sys.argv[1], encoding="utf-8") as file:
        words = [key_of(word) for word in re.findall("[A-Za-z]+", file.read())]
    rounds = [(count_shared(words), count_locked(words)) for _ in range(ROUNDS)]
    (shared, _), (locked, _) = rounds[0]
    print(f"{'word':12} {'regnubas':>8} {'lock':>8}")
    for word, count in sorted(shared.items(), key=lambda pair: (-pair[1], pair[0]))[:SHOWN]:
        print(f"{word_of(word):12} {count:8} {locked[word]:8}")
    shared_time, locked_time = (min(way[1] for way in ways) for ways in zip(*rounds))
    print(
        f"{len(words)} words, {len(shared)} of them different, {THREADS} threads:"
        f" regnubas {1000 * shared_time:.2f} ms, lock {1000 * locked_time:.2f} ms"
    )
    if any(one[0] != other[0] for one, other in rounds):
        sys.exit("the counts differ")


if __name__ == "__main__":
    main()
