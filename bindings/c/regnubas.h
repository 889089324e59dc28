/* An ordered dictionary that many threads read and change without locks. Its keys are numbers of 64
 * bits, its values of 128.
 *
 * Each function is proved to do what is said of it here, for every caller that keeps five rules,
 * which no compiler checks. Only tested: what is said of memory that is taken, refused or freed; of
 * regnubas_close, that it answers SHARED only where others share, and that it tells what other passes
 * had put in when they left. regnubas_end is proved in both. The rules:
 *
 *  1. A pass is zeroed before its first use and then written by this library alone; it may move in
 *     memory, and once it has moved its old bytes are not passed again.
 *  2. One call at a time works on a pass; where another thread takes it over, the start or the join
 *     of a thread, a lock or a sequentially consistent atomic orders the calls.
 *  3. Each pointer that is passed leads to live, initialised memory of its type and count, which
 *     nothing else reads or writes during the call; none is null, even where its count is 0.
 *  4. malloc, realloc and free are one allocator, which aligns to 16 bytes; no call comes from a
 *     signal handler, or in the child of a fork of a process with threads.
 *  5. The passes that regnubas_end or regnubas_renew is given are of one dictionary.
 *
 * Calls on different passes may overlap as they like: each takes effect at one moment between its
 * begin and its end. A call on a pass that is empty, was left, was closed or is away answers
 * REGNUBAS_NO_PASS. */
#ifndef REGNUBAS_H
#define REGNUBAS_H

#include <stddef.h>
#include <stdint.h>

#ifdef __cplusplus
extern "C" {
#endif

/* What a thread needs to make calls. 64 bytes, so that two passes never meet in a cache line: each
 * call writes to its pass. */
typedef struct regnubas_pass {
    void *at; /* of the library */
    uint64_t unused[7];
} regnubas_pass;

/* What each pass may take in the life of the dictionary; have at a time, in one that lasts. */
typedef struct regnubas_limits {
    uint32_t nodes; /* 0 to 32768: a change takes 1 in a try; the first key, or a new one in a
                     * full leaf, 3; in a trie a new one far from all others, 2 */
    uint32_t scx;   /* 0 to 32768: a change takes 1 in a try */
    uint32_t tries; /* 1 to 1000: after so many lost tries a change, a successor, a predecessor or a
                     * range answers CONTENDED. A try is lost where a change by another pass was in
                     * the way, and may have taken as much as one that is done. The number has no
                     * effect on a get, which reads nothing twice, nor where the dictionary lasts,
                     * which also asks for one in this range: there a call makes one try. */
} regnubas_limits;

/* A number of 128 bits: low + 2^64 * high. */
typedef struct regnubas_value {
    uint64_t low;
    uint64_t high;
} regnubas_value;

typedef struct regnubas_pair {
    uint64_t key;
    regnubas_value value;
} regnubas_pair;

typedef struct regnubas_answer {
    regnubas_value value; /* 0 where nothing is said of it */
    uint32_t status;      /* one of those below */
} regnubas_answer;

typedef struct regnubas_count {
    uint64_t pairs;  /* 0 where nothing is said of it */
    uint32_t status; /* one of those below */
} regnubas_count;

typedef struct regnubas_share {
    uint32_t nodes;
    uint32_t scx;
} regnubas_share;

enum {
    REGNUBAS_NONE = 0,      /* done: there is no value or pair, or was none */
    REGNUBAS_SOME = 1,      /* done: there is a value, a pair, a number of pairs */
    REGNUBAS_CONTENDED = 2, /* not done: other passes were in the way in each try; ask again */
    REGNUBAS_FULL = 3,      /* not done: too little is left of the pass's share. If the dictionary
                             * lasts, rest and ask again; if not, ask by another pass, or renew */
    REGNUBAS_NO_MEMORY = 4, /* not done: an allocation was refused */
    REGNUBAS_LIMITS = 5,    /* not made: a number is out of its range */
    REGNUBAS_NO_PASS = 6,   /* not done: there is no pass here */
    REGNUBAS_SHARED = 7,    /* not closed: other passes have not left; not ended: some are missing */
    REGNUBAS_ORDER = 8,     /* not made: the keys of the pairs do not rise */
    REGNUBAS_TOO_MANY = 9   /* not made: there are more pairs than there is room for */
};

/* Makes a dictionary, a tree, with `count` passes, 1 to 32: as many threads may work at a time. NONE; or
 * LIMITS or NO_MEMORY: then the passes are as they were. A pass that was held there before leaves. */
uint32_t regnubas_make(regnubas_limits each, regnubas_pass *passes, size_t count);

/* The same, but a trie: it stays low also where keys come in order. Each function takes passes of
 * either; USING.md says which to take. */
uint32_t regnubas_make_trie(regnubas_limits each, regnubas_pass *passes, size_t count);

/* The same, a tree or a trie, but the dictionary lasts: what its passes have used up comes back to
 * them as they rest.
 *
 * Its limits have the same ranges: 1 to 32 passes; 0 to 32768 nodes, and as many SCX-records, for
 * each; 1 to 1000 tries, though a call makes one. They are of what is in use at a time: the nodes
 * of the map that the pass has made, the SCX-records of its changes that were the last at a node of
 * the map, and what has not come back yet, which is what it takes in four rests or more. So take
 * ten times a pass's part of the pairs, and no less than its calls take in four rests. With fewer
 * than three nodes no first key goes in.
 *
 * CONTENDED: ask again at once. FULL: rest, and ask again. What is dead by then comes back in some
 * four rests, if these wait for nobody; in a trie, what pops leave may take one more for each 64
 * nodes of the share. regnubas_rest says for which pass it waits: until that one rests, goes away
 * or leaves, nothing comes back. A call that stays FULL while rests wait for nobody needs a larger
 * share. So each thread may change the map, with <sched.h>, by
 *
 *     // Sets a key, and asks as often as it takes. FULL: the share is too small.
 *     uint32_t set(regnubas_pass *pass, uint64_t key, regnubas_value value) {
 *         uint32_t other;
 *         for (int alone = 0;;) {
 *             uint32_t status = regnubas_insert(pass, key, value).status;
 *             if (status == REGNUBAS_CONTENDED) continue;
 *             if (status != REGNUBAS_FULL || alone == 8) return status; // a trie: 8 + nodes / 64
 *             if (regnubas_rest(pass, &other) == REGNUBAS_SOME) {
 *                 alone = 0;
 *                 sched_yield(); // pass number `other` is to go on
 *             } else {
 *                 alone++;
 *             }
 *         }
 *     }
 *
 *     // Changes a key a million times, and rests after each ten.
 *     int work(regnubas_pass *pass, uint64_t key) {
 *         uint32_t other;
 *         for (uint64_t i = 1; i <= 1000000; i++) {
 *             if (set(pass, key, (regnubas_value){i, 0}) > REGNUBAS_SOME) return 1;
 *             if (i % 10 == 0) regnubas_rest(pass, &other);
 *         }
 *         regnubas_away(pass); // or leave: a pass that does not rest holds up all others
 *         return 0;
 *     }
 *
 * It may have more pairs than there are nodes, since a leaf is one node and has up to four pairs:
 * room for 2 * passes * nodes of them, of 24 bytes each, is room for all at its end.
 *
 * The table takes, with n = 3 + passes * nodes and s = 1 + passes * scx, and with A and B, the
 * least powers of two above these, 8 * max(18 * A, 18 * n + 14 * B) bytes, or up to 2 KB more; in a
 * trie 24 for 18. That is 386 MB at most, in a trie 436 MB. While it is made it takes up to three
 * times that. Besides, a pass keeps a number and a byte for each of its nodes and SCX-records. Its
 * end takes 8 * (18 * n + 14 * s) bytes, and room for the pairs.
 *
 * A pass can go round its share 2^28 times at least (2^20 is proved); then it stays FULL. */
uint32_t regnubas_make_lasting(regnubas_limits each, regnubas_pass *passes, size_t count);
uint32_t regnubas_make_lasting_trie(regnubas_limits each, regnubas_pass *passes, size_t count);

/* A tree that does not last, but begins with these pairs, each key above the one before: it is
 * balanced, its leaves are full, and nothing of a pass's share is taken for it. There is room for
 * 2^20 nodes in all: passes * nodes, and two for each four pairs (in a trie up to two for each). NONE;
 * or LIMITS, ORDER, TOO_MANY or NO_MEMORY: then the passes are as they were. */
uint32_t regnubas_make_of_pairs(regnubas_limits each, const regnubas_pair *pairs, size_t pairs_count,
                                regnubas_pass *passes, size_t count);
uint32_t regnubas_make_trie_of_pairs(regnubas_limits each, const regnubas_pair *pairs,
                                     size_t pairs_count, regnubas_pass *passes, size_t count);

/* SOME with the value of the key, or NONE. It is never refused, and takes no memory. */
regnubas_answer regnubas_get(regnubas_pass *pass, uint64_t key);

/* Sets a key to a value; takes a key away. SOME with the value that the key had just before, or
 * NONE. CONTENDED, FULL: nothing has changed. */
regnubas_answer regnubas_insert(regnubas_pass *pass, uint64_t key, regnubas_value value);
regnubas_answer regnubas_delete(regnubas_pass *pass, uint64_t key);

/* Sets a key to a value if it has none. NONE: it has it now; SOME with the value that the key has:
 * nothing has changed. CONTENDED, FULL: nothing has changed. */
regnubas_answer regnubas_insert_new(regnubas_pass *pass, uint64_t key, regnubas_value value);

/* Takes a key away where it has the expected value. SOME with the value that the key had just
 * before: it was taken away where that is the one expected; NONE: the key had no value. CONTENDED,
 * FULL: nothing has changed. */
regnubas_answer regnubas_delete_if(regnubas_pass *pass, uint64_t key, regnubas_value expected);

/* Sets a key to a value where it has the expected one. SOME with the value that the key had just
 * before: it was replaced where that is the one expected; NONE: the key had no value. CONTENDED,
 * FULL: nothing has changed. */
regnubas_answer regnubas_replace_if(regnubas_pass *pass, uint64_t key, regnubas_value expected,
                                    regnubas_value value);

/* Takes the pair with the least key away; that with the greatest. SOME: it is at `pair`; NONE:
 * there was none. CONTENDED, FULL: nothing has changed. */
uint32_t regnubas_pop_first(regnubas_pass *pass, regnubas_pair *pair);
uint32_t regnubas_pop_last(regnubas_pass *pass, regnubas_pair *pair);

/* SOME: the pair with the least key above this one is at `pair`; NONE: there is none. CONTENDED,
 * NO_MEMORY. */
uint32_t regnubas_successor(regnubas_pass *pass, uint64_t key, regnubas_pair *pair);

/* SOME: the pair with the greatest key below this one is at `pair`; NONE: there is none. CONTENDED,
 * NO_MEMORY. */
uint32_t regnubas_predecessor(regnubas_pass *pass, uint64_t key, regnubas_pair *pair);

/* The first pairs by rising key, with keys from `low` to `high`, both with them, `count` at the
 * most and 64, all of one moment. SOME with the number of pairs written. CONTENDED, NO_MEMORY. */
regnubas_count regnubas_range(regnubas_pass *pass, uint64_t low, uint64_t high,
                              regnubas_pair *pairs, size_t count);

/* The pass of a dictionary that lasts rests, between two calls, ten or a hundred of them, and after
 * FULL. SOME: it waits for another, whose place among the passes that were made, from 0 on, is at
 * `other`; NONE: for nobody. Either way the pass may go on. A pass that neither rests nor is away
 * holds up all others. It takes no memory. A pass of a dictionary that does not last is as it was:
 * NONE. */
uint32_t regnubas_rest(regnubas_pass *pass, uint32_t *other);

/* The pass of a dictionary that lasts goes away, before a while without calls: no other waits for it,
 * and until it is back each call on it answers NO_PASS, but regnubas_leave, which gives it up. NONE;
 * or NO_PASS, also where the dictionary does not last: nothing is done. */
uint32_t regnubas_away(regnubas_pass *pass);

/* It is back, with what was left of its share. NONE; or NO_PASS, where no pass was away: nothing is
 * done. */
uint32_t regnubas_back(regnubas_pass *pass);

/* What is left of the pass's share, where the dictionary lasts until a rest adds to it; zeros where
 * there is no pass, or it is away. */
regnubas_share regnubas_left(regnubas_pass *pass);

/* Gives the pass up; where its dictionary lasts it goes away by that. With the last pass the
 * dictionary is freed. */
void regnubas_leave(regnubas_pass *pass);

/* Ends the dictionary, once all other passes have left, and writes its first pairs, `count` at the
 * most; room for passes * nodes and the pairs that it began with is room for all, and where it
 * lasts room for 2 * passes * nodes. What other passes had put in before they left is among them,
 * where no later call has changed it. SOME with the number of all its pairs: where these are more
 * than `count`, the others are lost. SHARED: the pass is as it was; NO_MEMORY: the dictionary is
 * gone. */
regnubas_count regnubas_close(regnubas_pass *pass, regnubas_pair *pairs, size_t count);

/* Ends a dictionary by all its passes at once, in any order, and writes its first pairs, `count` at
 * the most. They are those of its map after all that each of these passes was answered: what one of
 * them has put in is among them, where no later call has changed it, and the end itself changes
 * nothing. SOME with the number of all its pairs, and the passes are empty. NO_PASS: one is empty, or
 * there is none; SHARED: the dictionary was made with more passes than these (where others have left,
 * see regnubas_close): the passes are as they were. NO_MEMORY: the dictionary is gone, and the passes
 * are empty. */
regnubas_count regnubas_end(regnubas_pass *passes, size_t passes_count, regnubas_pair *pairs,
                            size_t count);

/* The same, and all its pairs begin the next dictionary, of the same shape, with as many passes,
 * which are put in the place of these; the next does not last, also where this one did. SOME with the
 * number of all its pairs. LIMITS, NO_PASS or SHARED: the passes are as they were. TOO_MANY or
 * NO_MEMORY: the passes are empty, and the pairs have been written, `count` at the most, for
 * regnubas_make_of_pairs with other limits, or later; but NO_MEMORY with no pairs may also mean that
 * the dictionary is gone, as in regnubas_end. */
regnubas_count regnubas_renew(regnubas_limits each, regnubas_pass *passes, size_t passes_count,
                              regnubas_pair *pairs, size_t count);

#ifdef __cplusplus
}
#endif

#endif
