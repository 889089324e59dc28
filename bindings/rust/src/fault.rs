//! Why a call is not done.

use crate::Pass;
use std::error::Error;
use std::fmt;

/// Why a call was not done. It has changed nothing.
///
/// ```
/// use regnubas::{make, Fault, Limits};
///
/// let mut passes = make(1, Limits { nodes: 3, scx: 1, tries: 1 })?;
/// passes[0].insert(5, 50)?;
/// let fault = passes[0].insert(5, 51).unwrap_err();
/// assert_eq!(fault, Fault::Full);
/// assert!(fault.to_string().starts_with("full: too little is left of the pass's share"));
/// # Ok::<(), Fault>(())
/// ```
#[derive(Clone, Copy, Debug, PartialEq, Eq)]
pub enum Fault {
    /// Other passes interfered in each try: call again, by yourself or by [`again`](crate::again).
    Contended,
    /// Too little is left of the pass's share. If the dictionary lasts, [`rest`](Pass::rest) and
    /// call again, as the example at [`again`](crate::again) does; if not, call by another pass, or
    /// [`renew`](Pass::renew).
    Full,
    /// An allocation failed.
    NoMemory,
    /// A number is out of its range.
    Limits,
    /// The keys of the pairs do not rise.
    Order,
    /// There are more pairs than there is room for.
    TooMany,
}

impl fmt::Display for Fault {
    fn fmt(&self, f: &mut fmt::Formatter<'_>) -> fmt::Result {
        f.write_str(match self {
            Fault::Contended => "contended: other passes interfered",
            Fault::Full => {
                "full: too little is left of the pass's share: rest and call again if the \
                 dictionary lasts; else use another pass, or renew"
            }
            Fault::NoMemory => "no memory",
            Fault::Limits => "bad limits",
            Fault::Order => "pairs out of order",
            Fault::TooMany => "too many pairs",
        })
    }
}

impl Error for Fault {}

/// Why a dictionary was not closed.
///
/// ```
/// use regnubas::{make, CloseFault, Limits};
///
/// let mut passes = make(2, Limits::for_changes(10, 10))?;
/// let (last, other) = (passes.pop().unwrap(), passes.pop().unwrap());
/// let last = match last.close() {
///     Err(CloseFault::Shared(last)) => last,
///     _ => panic!("closed"),
/// };
/// drop(other);
/// assert!(last.close().is_ok());
/// # Ok::<(), regnubas::Fault>(())
/// ```
#[derive(Debug)]
pub enum CloseFault {
    /// Other passes have not left: here is this one.
    Shared(Pass),
    /// An allocation failed: the dictionary is gone.
    NoMemory,
}

impl fmt::Display for CloseFault {
    fn fmt(&self, f: &mut fmt::Formatter<'_>) -> fmt::Result {
        f.write_str(match self {
            CloseFault::Shared(_) => "shared: other passes have not left",
            CloseFault::NoMemory => "no memory: the dictionary is gone",
        })
    }
}

impl Error for CloseFault {}

/// Why a dictionary was not renewed.
///
/// ```
/// use regnubas::{make, of_pairs, Fault, Limits, RenewFault};
///
/// let mut pass = make(1, Limits::for_changes(10, 10))?.remove(0);
/// pass.insert(5, 50)?;
/// let pairs = match pass.renew(33, Limits::for_changes(10, 10)) {
///     Err(RenewFault::Refused { fault: Fault::Limits, pairs }) => pairs,
///     _ => panic!("renewed"),
/// };
/// let mut passes = of_pairs(32, Limits::for_changes(10, 10), pairs)?;
/// assert_eq!(passes[31].get(5), Some(50));
/// # Ok::<(), Fault>(())
/// ```
#[derive(Debug)]
pub enum RenewFault {
    /// It was not closed.
    Close(CloseFault),
    /// It was closed, and the next was refused. Here are the pairs.
    Refused {
        /// Why the next was refused.
        fault: Fault,
        /// All pairs by rising key.
        pairs: Vec<(u64, u128)>,
    },
}

impl fmt::Display for RenewFault {
    fn fmt(&self, f: &mut fmt::Formatter<'_>) -> fmt::Result {
        match self {
            RenewFault::Close(fault) => fault.fmt(f),
            RenewFault::Refused { fault, .. } => fault.fmt(f),
        }
    }
}

impl Error for RenewFault {}

impl From<CloseFault> for RenewFault {
    fn from(fault: CloseFault) -> RenewFault {
        RenewFault::Close(fault)
    }
}

/// The status of a dictionary that others share.
pub(crate) const SHARED: u32 = 7;

/// Whether a call of this status has found something.
pub(crate) fn is_some(status: u32) -> Result<bool, Fault> {
    match status {
        0 => Ok(false),
        1 => Ok(true),
        2 => Err(Fault::Contended),
        3 => Err(Fault::Full),
        4 => Err(Fault::NoMemory),
        5 => Err(Fault::Limits),
        8 => Err(Fault::Order),
        9 => Err(Fault::TooMany),
        // A `Pass` always holds one, and `close` has looked for `SHARED`.
        status => unreachable!("status {status}"),
    }
}
