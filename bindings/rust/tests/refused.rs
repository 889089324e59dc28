//! Each allocation of the library is refused in turn: the call answers `NoMemory`, or does without;
//! nothing leaks, and the dictionary is as it was. What follows takes the place of what the library
//! asks of `malloc`.
use regnubas::{make, of_pairs, CloseFault, Fault, Limits, RenewFault};
use std::alloc::{alloc, dealloc, realloc, Layout};
use std::ptr::null_mut;
use std::sync::atomic::{AtomicUsize, Ordering::SeqCst};

static ASKED: AtomicUsize = AtomicUsize::new(0);
static REFUSE: AtomicUsize = AtomicUsize::new(0); // this one is refused; 0: none
static BLOCKS: AtomicUsize = AtomicUsize::new(0);

/// As the library takes the answer of an allocation.
#[repr(C)]
pub struct Tried {
    ok: u64,
    block: *mut u8,
}

const REFUSED: Tried = Tried { ok: 0, block: null_mut() };
const HEAD: usize = 16; // before each block: how long it is

fn is_refused() -> bool {
    ASKED.fetch_add(1, SeqCst) + 1 == REFUSE.load(SeqCst)
}

fn layout(size: usize) -> Layout {
    Layout::from_size_align(size + HEAD, 16).unwrap()
}

fn with_head(head: *mut u8, size: usize) -> Tried {
    // SAFETY: there are `HEAD` bytes at `head`, aligned to 16.
    unsafe {
        head.cast::<usize>().write(size);
        Tried { ok: 1, block: head.add(HEAD) }
    }
}

#[no_mangle]
extern "C" fn rattle_alloc(size: usize, _align: usize) -> Tried {
    if is_refused() {
        return REFUSED;
    }
    BLOCKS.fetch_add(1, SeqCst);
    // SAFETY: the size is not 0, since it has a head.
    with_head(unsafe { alloc(layout(size)) }, size)
}

/// # Safety
/// The block is one that these functions gave.
#[no_mangle]
unsafe extern "C" fn rattle_realloc(
    block: *mut u8,
    _old: usize,
    size: usize,
    _align: usize,
) -> Tried {
    if is_refused() {
        return REFUSED;
    }
    let head = block.sub(HEAD);
    with_head(realloc(head, layout(head.cast::<usize>().read()), size + HEAD), size)
}

/// # Safety
/// The block is one that these functions gave.
#[no_mangle]
unsafe extern "C" fn rattle_dealloc(block: *mut u8) {
    BLOCKS.fetch_sub(1, SeqCst);
    let head = block.sub(HEAD);
    dealloc(head, layout(head.cast::<usize>().read()));
}

/// What was refused of the story, if anything.
fn story() -> Result<(), Fault> {
    ASKED.store(0, SeqCst);
    let mut passes = make(2, Limits::for_changes(90, 90))?;
    for key in 0..90 {
        passes[0].insert(2 * key, key.into())?;
    }
    let mut refused = Ok(());
    for key in (0..89).step_by(9) {
        match passes[1].successor(2 * key) {
            Err(fault) => refused = Err(fault),
            found => assert_eq!(found, Ok(Some((2 * key + 2, u128::from(key) + 1)))),
        }
        match passes[1].predecessor(2 * key + 1) {
            Err(fault) => refused = Err(fault),
            found => assert_eq!(found, Ok(Some((2 * key, u128::from(key))))),
        }
        match passes[1].range(2 * key..).collect::<Result<Vec<_>, _>>() {
            Err(fault) => refused = Err(fault),
            Ok(pairs) => assert_eq!(pairs.len() as u64, 90 - key),
        }
    }
    let last = passes.remove(0);
    drop(passes);
    match last.close() {
        Err(CloseFault::NoMemory) => refused = Err(Fault::NoMemory),
        pairs => assert_eq!(pairs.unwrap().len(), 90),
    }
    refused
}

/// The same of one that begins with pairs, and is renewed.
fn renewed() -> Result<(), Fault> {
    ASKED.store(0, SeqCst);
    let all: Vec<(u64, u128)> = (0..9).map(|key| (2 * key, u128::from(key) << 70)).collect();
    let pass = of_pairs(1, Limits::for_changes(9, 9), all.clone())?.remove(0);
    match pass.renew(2, Limits::for_changes(5, 5)) {
        Err(RenewFault::Close(CloseFault::NoMemory)) => return Err(Fault::NoMemory),
        Err(RenewFault::Refused { fault, pairs }) => {
            assert_eq!(pairs, all);
            return Err(fault);
        }
        passes => assert_eq!(passes.unwrap()[1].get(16), Some(8 << 70)),
    }
    Ok(())
}

fn refuse_each(story: fn() -> Result<(), Fault>) {
    REFUSE.store(0, SeqCst);
    assert_eq!((story(), BLOCKS.load(SeqCst)), (Ok(()), 0));
    let asked = ASKED.load(SeqCst);
    let mut refused = 0;
    for i in 1..=asked {
        REFUSE.store(i, SeqCst);
        let told = story();
        assert!(matches!(told, Ok(()) | Err(Fault::NoMemory)), "{told:?}");
        refused += usize::from(told.is_err());
        assert_eq!(BLOCKS.load(SeqCst), 0);
    }
    assert!(refused > asked / 2, "{refused} of {asked}");
}

#[test]
fn each_allocation_is_refused() {
    refuse_each(story);
    refuse_each(renewed);
}
