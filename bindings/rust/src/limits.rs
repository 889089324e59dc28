//! What a pass may take.

/// What each pass may take in the life of the dictionary, of which nothing is ever given back; in
/// one that lasts, what it may have in use at a time, as [`make_lasting`](crate::make_lasting)
/// says.
///
/// ```
/// use regnubas::{make, Limits, Share};
///
/// let mut passes = make(2, Limits { nodes: 300, scx: 100, tries: 1000 })?;
/// assert_eq!(passes[0].left(), Share { nodes: 300, scx: 100 });
/// # Ok::<(), regnubas::Fault>(())
/// ```
#[repr(C)]
#[derive(Clone, Copy, Debug, PartialEq, Eq)]
pub struct Limits {
    /// 0 to 32,768. A change takes a node in a try; the first key, or a new one in a full leaf,
    /// three; in a trie a new one far from all others, two.
    pub nodes: u32,
    /// 0 to 32,768 SCX-records. A change takes one in a try.
    pub scx: u32,
    /// 1 to 1,000: after so many lost tries a change, a `successor`, a `predecessor` or a range is
    /// [`Contended`](crate::Fault::Contended). A try is lost where a change by another pass was in
    /// the way, and may have taken as much as one that is done. The number has no effect on `get`
    /// and `contains_key`, which read nothing twice, nor where the dictionary lasts, which also
    /// asks for one in this range: there a call makes one try.
    pub tries: u32,
}

impl Limits {
    /// The most nodes, or SCX-records, of a pass.
    ///
    /// ```
    /// assert_eq!(regnubas::Limits::MOST, 32_768);
    /// ```
    pub const MOST: u32 = 32_768;

    /// Limits for this many changes by each pass, of which `new_keys` give a value to a key that
    /// has none. What they take is doubled, up to [`MOST`](Limits::MOST), since a try that is lost
    /// to another thread takes as much. If they take more than `MOST` by themselves,
    /// [`make`](crate::make) returns [`Fault::Limits`](crate::Fault::Limits). A call has 100 tries.
    /// For a dictionary that lasts write limits yourself.
    ///
    /// ```
    /// use regnubas::Limits;
    ///
    /// assert_eq!(Limits::for_changes(100, 10), Limits { nodes: 240, scx: 200, tries: 100 });
    /// assert!(regnubas::make(2, Limits::for_changes(40_000, 10)).is_err());
    /// ```
    pub fn for_changes(changes: u32, new_keys: u32) -> Limits {
        let nodes = changes.saturating_add(new_keys.saturating_mul(2));
        Limits { nodes: with_lost_tries(nodes), scx: with_lost_tries(changes), tries: 100 }
    }
}

/// Twice this, as far as a pass may have it.
fn with_lost_tries(taken: u32) -> u32 {
    taken.max(taken.saturating_mul(2).min(Limits::MOST))
}

/// What is left of a pass's share; where the dictionary lasts, until a rest adds to it.
///
/// ```
/// let mut passes = regnubas::make(1, regnubas::Limits { nodes: 300, scx: 100, tries: 100 })?;
/// passes[0].insert(5, 50)?;
/// assert_eq!(passes[0].left(), regnubas::Share { nodes: 297, scx: 99 });
/// # Ok::<(), regnubas::Fault>(())
/// ```
#[repr(C)]
#[derive(Clone, Copy, Debug, PartialEq, Eq)]
pub struct Share {
    /// Nodes.
    pub nodes: u32,
    /// SCX-records.
    pub scx: u32,
}
