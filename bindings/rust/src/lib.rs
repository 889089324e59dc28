//! An ordered dictionary that many threads read and change without locks: its keys are `u64`, its
//! values `u128`. What the library asks of its callers is kept by types: a [`Pass`] is moved and
//! never copied, its calls take `&mut`, and it is `Send` and not `Sync`.
//!
//! ```
//! let mut passes = regnubas::make(2, regnubas::Limits::for_changes(100, 100))?;
//! std::thread::scope(|s| for pass in &mut passes { s.spawn(|| pass.insert(5, 50)); });
//! assert_eq!(passes[0].get(5), Some(50));
//! # Ok::<(), regnubas::Fault>(())
//! ```
//!
//! ```compile_fail
//! fn shared<T: Sync>() {}
//! shared::<regnubas::Pass>();
//! ```
//!
//! Names are those of `BTreeMap`. What differs: a call may be refused (see [`Fault`]), and only
//! `get` and `contains_key` never are; `insert_new`, `remove_if`, `replace_if` look and change in
//! one step; there is no `len`, since the dictionary keeps no count.

mod fault;
mod ffi;
mod limits;
mod pass;
mod range;

pub use fault::{CloseFault, Fault, RenewFault};
pub use limits::{Limits, Share};
pub use pass::{
    make, make_lasting, make_lasting_trie, make_trie, of_pairs, trie_of_pairs, Away, Pass,
};
pub use range::Range;

/// Calls until other passes do not interfere: after [`Fault::Contended`] alone, and at once.
///
/// ```
/// # let mut pass = regnubas::make(1, regnubas::Limits::for_changes(10, 10))?.remove(0);
/// assert_eq!(regnubas::again(|| pass.insert(5, 50))?, None);
/// # Ok::<(), regnubas::Fault>(())
/// ```
///
/// It never rests: [`Fault::Full`] is returned, as is all else. So where the dictionary lasts, each
/// thread may rest after each ten calls, and where one is full, rest and call again:
///
/// ```
/// use regnubas::{again, make_lasting, Fault, Limits, Pass};
///
/// /// Sets a key, and asks as often as it takes. `Full`: the share is too small.
/// fn set(pass: &mut Pass, key: u64, value: u128) -> Result<Option<u128>, Fault> {
///     let mut alone = 0;
///     loop {
///         match again(|| pass.insert(key, value)) {
///             Err(Fault::Full) if alone < 8 => {} // in a trie 8 + nodes / 64
///             told => return told,
///         }
///         if pass.rest().is_some() {
///             alone = 0;
///             std::thread::yield_now(); // another pass is to go on
///         } else {
///             alone += 1;
///         }
///     }
/// }
///
/// /// Changes a key many times. The pass leaves at the end, so that no other waits for it.
/// fn work(mut pass: Pass, key: u64) -> Result<(), Fault> {
///     for time in 1..=1000 {
///         set(&mut pass, key, time)?;
///         if time % 10 == 0 {
///             pass.rest();
///         }
///     }
///     Ok(())
/// }
///
/// let mut passes = make_lasting(3, Limits { nodes: 64, scx: 64, tries: 1 })?;
/// let own = passes.remove(0).away(); // this thread only waits
/// let threads: Vec<_> =
///     (5..).zip(passes).map(|(key, pass)| std::thread::spawn(move || work(pass, key))).collect();
/// for thread in threads {
///     thread.join().unwrap()?;
/// }
/// assert_eq!(own.back().close().unwrap(), [(5, 1000), (6, 1000)]);
/// # Ok::<(), Fault>(())
/// ```
pub fn again<T>(mut call: impl FnMut() -> Result<T, Fault>) -> Result<T, Fault> {
    loop {
        match call() {
            Err(Fault::Contended) => {}
            result => return result,
        }
    }
}
