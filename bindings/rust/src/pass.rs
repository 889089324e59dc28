//! A pass: what a thread needs to make calls.

use crate::fault::{is_some, CloseFault, Fault, RenewFault, SHARED};
use crate::ffi::*;
use crate::range::{ends, Range};
use crate::{Limits, Share};
use std::fmt;
use std::ops::RangeBounds;

/// The most pairs that one call of the library lists.
pub(crate) const MOST_LISTED: usize = 64;

/// What a thread needs to make calls. One that is dropped leaves; the last frees the dictionary.
///
/// ```
/// let mut passes = regnubas::make(2, regnubas::Limits::for_changes(10, 10))?;
/// let (mut one, mut other) = (passes.pop().unwrap(), passes.pop().unwrap());
/// std::thread::spawn(move || one.insert(5, 50)).join().unwrap()?;
/// assert_eq!(other.get(5), Some(50));
/// # Ok::<(), regnubas::Fault>(())
/// ```
pub struct Pass {
    raw: RawPass,
    /// The most pairs that the dictionary may have: a new key takes a node at least; in one that
    /// lasts a node comes back, and a leaf of one may have four pairs.
    most: usize,
    trie: bool,
}

// SAFETY: what a pass leads to may cross threads, as the library proves of its handle; and `&mut`
// in each call gives the pass to one call at a time.
unsafe impl Send for Pass {}

impl fmt::Debug for Pass {
    fn fmt(&self, f: &mut fmt::Formatter<'_>) -> fmt::Result {
        f.debug_struct("Pass").finish_non_exhaustive()
    }
}

/// A dictionary with this many passes, 1 to 32: as many threads may work at a time.
///
/// ```
/// use regnubas::{make, Fault, Limits};
///
/// assert_eq!(make(4, Limits::for_changes(1000, 200))?.len(), 4);
/// assert_eq!(make(33, Limits::for_changes(1000, 200)).unwrap_err(), Fault::Limits);
/// # Ok::<(), Fault>(())
/// ```
pub fn make(passes: usize, each: Limits) -> Result<Vec<Pass>, Fault> {
    begun(passes, each, &[], false)
}

/// The same, but a trie: it stays low also where keys come in order.
///
/// ```
/// use regnubas::{make_trie, Limits};
///
/// let mut pass = make_trie(1, Limits::for_changes(1000, 1000))?.remove(0);
/// for key in 0..1000 {
///     pass.insert(key, 50)?;
/// }
/// assert_eq!(pass.pop_first()?, Some((0, 50)));
/// # Ok::<(), regnubas::Fault>(())
/// ```
pub fn make_trie(passes: usize, each: Limits) -> Result<Vec<Pass>, Fault> {
    begun(passes, each, &[], true)
}

/// A dictionary that lasts, with this many passes, 1 to 32: what its passes have used up comes back
/// to them as they [`rest`](Pass::rest).
///
/// ```
/// use regnubas::{make_lasting, Limits};
///
/// let mut pass = make_lasting(1, Limits { nodes: 64, scx: 64, tries: 1 })?.remove(0);
/// for time in 0..1000 {
///     pass.insert(5, time)?;
///     assert_eq!(pass.rest(), None);
/// }
/// # Ok::<(), regnubas::Fault>(())
/// ```
///
/// The limits have the ranges that [`Limits`] says, but are of what is in use at a time: the nodes
/// of the map that the pass has made, the SCX-records of its changes that were the last at a node
/// of the map, and what has not come back yet, which is what it takes in four rests or more. So
/// take ten times a pass's part of the pairs, and no less than its calls take in four rests. With
/// fewer than three nodes no first key goes in. A call makes one try, whatever `tries` says.
///
/// After [`Fault::Contended`] call again at once; after [`Fault::Full`] rest, and call again: the
/// example at [`again`](crate::again) does both. What is dead by then comes back in some four
/// rests, if these wait for nobody; in a trie, what pops leave may take one more for each 64 nodes
/// of the share. [`rest`](Pass::rest) says for which pass it waits: until that one rests, goes away
/// or is dropped, nothing comes back. A call that stays `Full` while rests wait for nobody needs a
/// larger share.
///
/// It may have more pairs than there are nodes, since a leaf is one node and has up to four pairs:
/// [`close`](Pass::close) takes room for `2 * passes * nodes` pairs, 24 bytes each, and for those
/// that it returns.
///
/// The table takes, with `n = 3 + passes * nodes` and `s = 1 + passes * scx`, and with `A` and `B`,
/// the least powers of two above these, `8 * max(18 * A, 18 * n + 14 * B)` bytes, or up to 2 KB
/// more; in a trie 24 for 18. That is 386 MB at most, in a trie 436 MB. While it is made it takes
/// up to three times that. Besides, a pass keeps a number and a byte for each of its nodes and
/// SCX-records. `close` takes `8 * (18 * n + 14 * s)` bytes more.
///
/// A pass can go round its share 2^28 times at least (2^20 is proved); then it stays `Full`.
pub fn make_lasting(passes: usize, each: Limits) -> Result<Vec<Pass>, Fault> {
    lasting(passes, each, false)
}

/// The same, but a trie: it stays low also where keys come in order.
///
/// ```
/// use regnubas::{make_lasting_trie, Limits};
///
/// let mut pass = make_lasting_trie(1, Limits { nodes: 64, scx: 64, tries: 1 })?.remove(0);
/// assert_eq!(pass.insert(5, 50)?, None);
/// # Ok::<(), regnubas::Fault>(())
/// ```
pub fn make_lasting_trie(passes: usize, each: Limits) -> Result<Vec<Pass>, Fault> {
    lasting(passes, each, true)
}

fn lasting(passes: usize, each: Limits, trie: bool) -> Result<Vec<Pass>, Fault> {
    if passes > 32 {
        return Err(Fault::Limits);
    }
    let make = if trie { regnubas_make_lasting_trie } else { regnubas_make_lasting };
    let mut raw: Vec<RawPass> = (0..passes).map(|_| RawPass::EMPTY).collect();
    // SAFETY: these are `passes` zeroed passes, and no one else has them.
    is_some(unsafe { make(each, raw.as_mut_ptr(), raw.len()) })?;
    let most = 2 * passes * each.nodes as usize;
    Ok(raw.into_iter().map(|raw| Pass { raw, most, trie }).collect())
}

/// A dictionary that begins with these pairs, each key above the one before. Its tree is balanced,
/// and nothing of a pass's share is taken for it. There is room for 2^20 nodes in all: those of the
/// passes, and two for each four pairs.
///
/// ```
/// use regnubas::{of_pairs, Fault, Limits};
/// use std::collections::BTreeMap;
///
/// let map = BTreeMap::from([(5, 50), (9, 90)]);
/// let mut passes = of_pairs(2, Limits::for_changes(10, 10), map)?;
/// assert_eq!(passes[1].successor(5)?, Some((9, 90)));
/// let fault = of_pairs(2, Limits::for_changes(10, 10), [(9, 90), (5, 50)]).unwrap_err();
/// assert_eq!(fault, Fault::Order);
/// # Ok::<(), Fault>(())
/// ```
pub fn of_pairs(
    passes: usize,
    each: Limits,
    pairs: impl IntoIterator<Item = (u64, u128)>,
) -> Result<Vec<Pass>, Fault> {
    begun(passes, each, &raw_of(pairs), false)
}

/// The same, but a trie, which may take up to two nodes for each pair.
///
/// ```
/// use regnubas::{trie_of_pairs, Limits};
///
/// let pairs = (0..1000).map(|key| (key, 50));
/// let mut pass = trie_of_pairs(1, Limits::for_changes(10, 10), pairs)?.remove(0);
/// assert_eq!(pass.pop_last()?, Some((999, 50)));
/// # Ok::<(), regnubas::Fault>(())
/// ```
pub fn trie_of_pairs(
    passes: usize,
    each: Limits,
    pairs: impl IntoIterator<Item = (u64, u128)>,
) -> Result<Vec<Pass>, Fault> {
    begun(passes, each, &raw_of(pairs), true)
}

fn raw_of(pairs: impl IntoIterator<Item = (u64, u128)>) -> Vec<Pair> {
    pairs.into_iter().map(|(key, value)| Pair::of(key, value)).collect()
}

fn begun(passes: usize, each: Limits, pairs: &[Pair], trie: bool) -> Result<Vec<Pass>, Fault> {
    if passes > 32 {
        return Err(Fault::Limits);
    }
    let make = if trie { regnubas_make_trie_of_pairs } else { regnubas_make_of_pairs };
    let mut raw: Vec<RawPass> = (0..passes).map(|_| RawPass::EMPTY).collect();
    // SAFETY: these are `passes` zeroed passes, and no one else has them; nothing writes the pairs.
    let status = unsafe { make(each, pairs.as_ptr(), pairs.len(), raw.as_mut_ptr(), raw.len()) };
    is_some(status)?;
    let most = passes * each.nodes as usize + pairs.len();
    Ok(raw.into_iter().map(|raw| Pass { raw, most, trie }).collect())
}

fn value_of(answer: Answer) -> Result<Option<u128>, Fault> {
    Ok(is_some(answer.status)?.then(|| answer.value.number()))
}

fn pair_of(call: impl FnOnce(&mut Pair) -> u32) -> Result<Option<(u64, u128)>, Fault> {
    let mut pair = Pair::default();
    Ok(is_some(call(&mut pair))?.then(|| pair.numbers()))
}

// SAFETY of the calls: the pass is held and ours alone by `&mut`, and so are a pair and a room.
impl Pass {
    /// The value of a key. It is never refused.
    ///
    /// ```
    /// # let mut pass = regnubas::make(1, regnubas::Limits::for_changes(10, 10))?.remove(0);
    /// pass.insert(5, 50)?;
    /// assert_eq!((pass.get(5), pass.get(6)), (Some(50), None));
    /// # Ok::<(), regnubas::Fault>(())
    /// ```
    pub fn get(&mut self, key: u64) -> Option<u128> {
        value_of(unsafe { regnubas_get(&mut self.raw, key) }).expect("a get is never refused")
    }

    /// Whether a key has a value. It is never refused.
    ///
    /// ```
    /// # let mut pass = regnubas::make(1, regnubas::Limits::for_changes(10, 10))?.remove(0);
    /// pass.insert(5, 50)?;
    /// assert!(pass.contains_key(5) && !pass.contains_key(6));
    /// # Ok::<(), regnubas::Fault>(())
    /// ```
    pub fn contains_key(&mut self, key: u64) -> bool {
        self.get(key).is_some()
    }

    /// Sets a key to a value, and returns the value that the key had just before.
    ///
    /// ```
    /// # let mut pass = regnubas::make(1, regnubas::Limits::for_changes(10, 10))?.remove(0);
    /// assert_eq!(pass.insert(5, 50)?, None);
    /// assert_eq!(pass.insert(5, 51)?, Some(50));
    /// # Ok::<(), regnubas::Fault>(())
    /// ```
    pub fn insert(&mut self, key: u64, value: u128) -> Result<Option<u128>, Fault> {
        value_of(unsafe { regnubas_insert(&mut self.raw, key, Value::of(value)) })
    }

    /// Sets a key to a value if it has none, and returns the value that it has otherwise.
    ///
    /// ```
    /// # let mut pass = regnubas::make(1, regnubas::Limits::for_changes(10, 10))?.remove(0);
    /// assert_eq!(pass.insert_new(5, 50)?, None);
    /// assert_eq!(pass.insert_new(5, 51)?, Some(50));
    /// assert_eq!(pass.get(5), Some(50));
    /// # Ok::<(), regnubas::Fault>(())
    /// ```
    pub fn insert_new(&mut self, key: u64, value: u128) -> Result<Option<u128>, Fault> {
        value_of(unsafe { regnubas_insert_new(&mut self.raw, key, Value::of(value)) })
    }

    /// Removes a key, and returns the value that it had.
    ///
    /// ```
    /// # let mut pass = regnubas::make(1, regnubas::Limits::for_changes(10, 10))?.remove(0);
    /// pass.insert(5, 50)?;
    /// assert_eq!((pass.remove(5)?, pass.remove(5)?), (Some(50), None));
    /// # Ok::<(), regnubas::Fault>(())
    /// ```
    pub fn remove(&mut self, key: u64) -> Result<Option<u128>, Fault> {
        value_of(unsafe { regnubas_delete(&mut self.raw, key) })
    }

    /// Removes a key where it has the expected value, and returns the value that it had just
    /// before: it was removed where that is the one expected.
    ///
    /// ```
    /// # let mut pass = regnubas::make(1, regnubas::Limits::for_changes(10, 10))?.remove(0);
    /// pass.insert(5, 50)?;
    /// assert_eq!(pass.remove_if(5, 49)?, Some(50));
    /// assert_eq!(pass.remove_if(5, 50)?, Some(50));
    /// assert_eq!(pass.remove_if(5, 50)?, None);
    /// # Ok::<(), regnubas::Fault>(())
    /// ```
    pub fn remove_if(&mut self, key: u64, expected: u128) -> Result<Option<u128>, Fault> {
        value_of(unsafe { regnubas_delete_if(&mut self.raw, key, Value::of(expected)) })
    }

    /// Sets a key to a value where it has the expected one, and returns the value that it had just
    /// before: it was replaced where that is the one expected.
    ///
    /// ```
    /// # let mut pass = regnubas::make(1, regnubas::Limits::for_changes(10, 10))?.remove(0);
    /// pass.insert(5, 50)?;
    /// assert_eq!(pass.replace_if(5, 49, 51)?, Some(50));
    /// assert_eq!(pass.replace_if(5, 50, 52)?, Some(50));
    /// assert_eq!(pass.get(5), Some(52));
    /// # Ok::<(), regnubas::Fault>(())
    /// ```
    pub fn replace_if(
        &mut self,
        key: u64,
        expected: u128,
        value: u128,
    ) -> Result<Option<u128>, Fault> {
        value_of(unsafe {
            regnubas_replace_if(&mut self.raw, key, Value::of(expected), Value::of(value))
        })
    }

    /// The pair with the least key.
    ///
    /// ```
    /// # let mut pass = regnubas::make(1, regnubas::Limits::for_changes(10, 10))?.remove(0);
    /// pass.insert(9, 90)?;
    /// pass.insert(5, 50)?;
    /// assert_eq!(pass.first_key_value()?, Some((5, 50)));
    /// # Ok::<(), regnubas::Fault>(())
    /// ```
    pub fn first_key_value(&mut self) -> Result<Option<(u64, u128)>, Fault> {
        Ok(self.listed(0, u64::MAX, 1)?.pop())
    }

    /// Removes the pair with the least key.
    ///
    /// ```
    /// # let mut pass = regnubas::make(1, regnubas::Limits::for_changes(10, 10))?.remove(0);
    /// pass.insert(9, 90)?;
    /// pass.insert(5, 50)?;
    /// assert_eq!(pass.pop_first()?, Some((5, 50)));
    /// # Ok::<(), regnubas::Fault>(())
    /// ```
    pub fn pop_first(&mut self) -> Result<Option<(u64, u128)>, Fault> {
        pair_of(|pair| unsafe { regnubas_pop_first(&mut self.raw, pair) })
    }

    /// Removes the pair with the greatest key.
    ///
    /// ```
    /// # let mut pass = regnubas::make(1, regnubas::Limits::for_changes(10, 10))?.remove(0);
    /// pass.insert(9, 90)?;
    /// pass.insert(5, 50)?;
    /// assert_eq!(pass.pop_last()?, Some((9, 90)));
    /// # Ok::<(), regnubas::Fault>(())
    /// ```
    pub fn pop_last(&mut self) -> Result<Option<(u64, u128)>, Fault> {
        pair_of(|pair| unsafe { regnubas_pop_last(&mut self.raw, pair) })
    }

    /// The pair with the least key above this one.
    ///
    /// ```
    /// # let mut pass = regnubas::make(1, regnubas::Limits::for_changes(10, 10))?.remove(0);
    /// pass.insert(9, 90)?;
    /// pass.insert(5, 50)?;
    /// assert_eq!((pass.successor(5)?, pass.successor(9)?), (Some((9, 90)), None));
    /// # Ok::<(), regnubas::Fault>(())
    /// ```
    pub fn successor(&mut self, key: u64) -> Result<Option<(u64, u128)>, Fault> {
        pair_of(|pair| unsafe { regnubas_successor(&mut self.raw, key, pair) })
    }

    /// The pair with the greatest key below this one.
    ///
    /// ```
    /// # let mut pass = regnubas::make(1, regnubas::Limits::for_changes(10, 10))?.remove(0);
    /// pass.insert(9, 90)?;
    /// pass.insert(5, 50)?;
    /// assert_eq!((pass.predecessor(9)?, pass.predecessor(5)?), (Some((5, 50)), None));
    /// # Ok::<(), regnubas::Fault>(())
    /// ```
    pub fn predecessor(&mut self, key: u64) -> Result<Option<(u64, u128)>, Fault> {
        pair_of(|pair| unsafe { regnubas_predecessor(&mut self.raw, key, pair) })
    }

    /// The pairs with these keys, by rising key. See [`Range`] for what is of one moment. Where no
    /// key is in the range, there is none.
    ///
    /// ```
    /// # let mut pass = regnubas::make(1, regnubas::Limits::for_changes(10, 10))?.remove(0);
    /// pass.insert(9, 90)?;
    /// pass.insert(5, 50)?;
    /// for pair in pass.range(5..=8) {
    ///     let (key, value) = pair?;
    ///     assert_eq!((key, value), (5, 50));
    /// }
    /// # Ok::<(), regnubas::Fault>(())
    /// ```
    pub fn range(&mut self, keys: impl RangeBounds<u64>) -> Range<'_> {
        Range::new(self, keys)
    }

    /// The first pairs with these keys, by rising key and all of one moment: at most `most`, and
    /// 64.
    ///
    /// ```
    /// # let mut pass = regnubas::make(1, regnubas::Limits::for_changes(10, 10))?.remove(0);
    /// pass.insert(9, 90)?;
    /// pass.insert(5, 50)?;
    /// assert_eq!(pass.snapshot(.., 64)?, [(5, 50), (9, 90)]);
    /// assert_eq!(pass.snapshot(.., 1)?, [(5, 50)]);
    /// # Ok::<(), regnubas::Fault>(())
    /// ```
    pub fn snapshot(
        &mut self,
        keys: impl RangeBounds<u64>,
        most: usize,
    ) -> Result<Vec<(u64, u128)>, Fault> {
        ends(keys).map_or(Ok(Vec::new()), |(low, high)| self.listed(low, high, most))
    }

    pub(crate) fn listed(
        &mut self,
        low: u64,
        high: u64,
        most: usize,
    ) -> Result<Vec<(u64, u128)>, Fault> {
        let mut room = [Pair::default(); MOST_LISTED];
        let most = most.min(MOST_LISTED);
        let count = unsafe { regnubas_range(&mut self.raw, low, high, room.as_mut_ptr(), most) };
        is_some(count.status)?;
        Ok(room[..count.pairs as usize].iter().map(Pair::numbers).collect())
    }

    /// Rests, between two calls, ten or a hundred of them, and after [`Fault::Full`]: returns the
    /// place of the pass that it waits for, among those that were made, from 0 on. Either way it
    /// may go on. A pass of a dictionary that lasts that neither rests nor is away holds up all
    /// others; one of another dictionary waits for nobody.
    ///
    /// ```
    /// use regnubas::{make_lasting, Limits};
    ///
    /// let mut passes = make_lasting(2, Limits { nodes: 64, scx: 64, tries: 1 })?;
    /// assert_eq!(passes[0].rest(), None); // its whole share is left
    /// for time in 0..60 {
    ///     passes[0].insert(5, time)?;
    /// }
    /// assert_eq!(passes[0].rest(), Some(1));
    /// # Ok::<(), regnubas::Fault>(())
    /// ```
    pub fn rest(&mut self) -> Option<u32> {
        let mut other = 0;
        let status = unsafe { regnubas_rest(&mut self.raw, &mut other) };
        is_some(status).expect("a rest is never refused").then_some(other)
    }

    /// Goes away, before a while without calls, so that no other pass waits for this one.
    ///
    /// ```
    /// use regnubas::{make_lasting, Limits};
    ///
    /// let mut passes = make_lasting(2, Limits { nodes: 64, scx: 64, tries: 1 })?;
    /// let away = passes.remove(1).away();
    /// assert_eq!(passes[0].rest(), None);
    /// passes[0].insert(5, 50)?;
    /// assert_eq!(away.back().get(5), Some(50));
    /// # Ok::<(), regnubas::Fault>(())
    /// ```
    pub fn away(mut self) -> Away {
        unsafe { regnubas_away(&mut self.raw) };
        Away { pass: self }
    }

    /// What is left of the pass's share; where the dictionary lasts, until a rest adds to it.
    ///
    /// ```
    /// # let mut pass = regnubas::make(1, regnubas::Limits::for_changes(10, 10))?.remove(0);
    /// assert_eq!(pass.left(), regnubas::Share { nodes: 60, scx: 20 });
    /// # Ok::<(), regnubas::Fault>(())
    /// ```
    pub fn left(&mut self) -> Share {
        unsafe { regnubas_left(&mut self.raw) }
    }

    /// Ends the dictionary by its last pass: all its pairs by rising key.
    ///
    /// ```
    /// # let mut pass = regnubas::make(1, regnubas::Limits::for_changes(10, 10))?.remove(0);
    /// pass.insert(5, 50)?;
    /// assert_eq!(pass.close()?, [(5, 50)]);
    /// # Ok::<(), Box<dyn std::error::Error>>(())
    /// ```
    pub fn close(mut self) -> Result<Vec<(u64, u128)>, CloseFault> {
        let mut room = vec![Pair::default(); self.most];
        let count = unsafe { regnubas_close(&mut self.raw, room.as_mut_ptr(), room.len()) };
        if count.status == SHARED {
            return Err(CloseFault::Shared(self));
        }
        is_some(count.status).map_err(|_| CloseFault::NoMemory)?;
        Ok(room[..count.pairs as usize].iter().map(Pair::numbers).collect())
    }

    /// Ends the dictionary by its last pass, and begins the next, of the same shape and with so many
    /// passes, with its pairs. The next does not last.
    ///
    /// ```
    /// # use regnubas::{make, Limits, Share};
    /// let mut pass = make(1, Limits { nodes: 3, scx: 1, tries: 1 })?.remove(0);
    /// pass.insert(5, 50)?;
    /// let mut passes = pass.renew(2, Limits { nodes: 300, scx: 100, tries: 100 })?;
    /// assert_eq!(passes[1].get(5), Some(50));
    /// assert_eq!(passes[0].left(), Share { nodes: 300, scx: 100 });
    /// # Ok::<(), Box<dyn std::error::Error>>(())
    /// ```
    pub fn renew(self, passes: usize, each: Limits) -> Result<Vec<Pass>, RenewFault> {
        let trie = self.trie;
        let pairs = self.close()?;
        begun(passes, each, &raw_of(pairs.iter().copied()), trie)
            .map_err(|fault| RenewFault::Refused { fault, pairs })
    }
}

/// A pass that is away. One that is dropped leaves.
#[derive(Debug)]
pub struct Away {
    pass: Pass,
}

impl Away {
    /// The pass is back. See [`Pass::away`].
    pub fn back(mut self) -> Pass {
        // SAFETY: as of the calls.
        unsafe { regnubas_back(&mut self.pass.raw) };
        self.pass
    }
}

impl Drop for Pass {
    fn drop(&mut self) {
        // SAFETY: as of the calls; one that was closed is empty, of which this makes nothing.
        unsafe { regnubas_leave(&mut self.raw) }
    }
}
