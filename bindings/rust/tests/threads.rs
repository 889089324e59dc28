//! Four threads on one dictionary.
use regnubas::{again, make, make_lasting, make_lasting_trie, make_trie, of_pairs, trie_of_pairs};
use regnubas::{CloseFault, Fault, Limits, Pass, RenewFault};

const THREADS: u64 = 4;
const KEYS: u64 = 3000;

fn key_of(thread: u64, i: u64) -> u64 {
    i * THREADS + thread
}

/// The value that a key is given here: it has bits in both its words.
fn value_of(key: u64) -> u128 {
    u128::from(!key) << 64 | u128::from(key + 7)
}

fn work(number: u64, mut pass: Pass) -> Pass {
    for i in 0..KEYS {
        let key = key_of(number, i);
        assert_eq!(again(|| pass.insert(key, u128::MAX)), Ok(None));
        assert_eq!(again(|| pass.replace_if(key, u128::from(u64::MAX), 0)), Ok(Some(u128::MAX)));
        assert_eq!(again(|| pass.replace_if(key, u128::MAX, value_of(key))), Ok(Some(u128::MAX)));
        assert_eq!(pass.get(key), Some(value_of(key)));
    }
    for i in (0..KEYS).step_by(3) {
        let key = key_of(number, i);
        assert_eq!(again(|| pass.insert_new(key, 0)), Ok(Some(value_of(key))));
        assert_eq!(again(|| pass.remove_if(key, 0)), Ok(Some(value_of(key))));
        assert_eq!(again(|| pass.remove_if(key, value_of(key))), Ok(Some(value_of(key))));
        assert_eq!(again(|| pass.insert_new(key, 0)), Ok(None));
        assert_eq!(again(|| pass.remove(key)), Ok(Some(0)));
        assert_eq!(pass.get(key), None);
        if let Some((next, _)) = again(|| pass.successor(key)).unwrap() {
            assert!(next > key);
        }
        if let Some((previous, _)) = again(|| pass.predecessor(key)).unwrap() {
            assert!(previous < key);
        }
        let pairs = again(|| pass.snapshot(key.., 16)).unwrap();
        assert!(pairs.len() <= 16 && pairs.iter().all(|pair| pair.0 > key));
        assert!(pairs.windows(2).all(|two| two[0].0 < two[1].0));
    }
    pass
}

const MOST: Limits = Limits { nodes: 32768, scx: 32768, tries: 100 };

#[test]
fn four_threads_and_a_close() {
    work_and_close(make(4, MOST).unwrap());
    work_and_close(make_trie(4, MOST).unwrap());
}

fn work_and_close(passes: Vec<Pass>) {
    let threads: Vec<_> = (0..THREADS)
        .zip(passes)
        .map(|(t, pass)| std::thread::spawn(move || work(t, pass)))
        .collect();
    let mut passes: Vec<Pass> = threads.into_iter().map(|t| t.join().unwrap()).collect();
    let last = passes.pop().unwrap();
    let mut last = match last.close() {
        Err(CloseFault::Shared(last)) => last,
        _ => panic!("closed while shared"),
    };
    drop(passes);
    let least = key_of(0, 1);
    assert_eq!(last.pop_first(), Ok(Some((least, value_of(least)))));
    let keys: Vec<u64> = (0..KEYS)
        .filter(|i| i % 3 != 0)
        .flat_map(|i| (0..THREADS).map(move |t| key_of(t, i)))
        .collect();
    let greatest = keys[keys.len() - 1];
    assert_eq!(last.pop_last(), Ok(Some((greatest, value_of(greatest)))));
    assert_eq!(
        last.close().unwrap(),
        keys[1..keys.len() - 1].iter().map(|&key| (key, value_of(key))).collect::<Vec<_>>()
    );
}

/// How many nodes a key takes that is far from all others.
fn far_key(mut pass: Pass) -> u32 {
    for key in 1..=5 {
        assert_eq!(pass.insert(key, key.into()), Ok(None));
    }
    let before = pass.left().nodes;
    assert_eq!(pass.insert(1 << 63, 6), Ok(None));
    before - pass.left().nodes
}

#[test]
fn a_far_key_takes_two_nodes_in_a_trie() {
    assert_eq!(far_key(make(1, MOST).unwrap().remove(0)), 1);
    assert_eq!(far_key(make_trie(1, MOST).unwrap().remove(0)), 2);
}

#[test]
fn what_is_refused() {
    assert_eq!(make(0, Limits { nodes: 1, scx: 1, tries: 1 }).err(), Some(Fault::Limits));
    assert_eq!(make(33, Limits { nodes: 1, scx: 1, tries: 1 }).err(), Some(Fault::Limits));
    let mut passes = make(1, Limits { nodes: 3, scx: 1, tries: 1 }).unwrap();
    assert_eq!((passes[0].pop_first(), passes[0].pop_last()), (Ok(None), Ok(None)));
    assert_eq!(passes[0].insert(5, 50), Ok(None));
    assert_eq!(passes[0].remove(5), Err(Fault::Full));
}

/// Puts fresh keys in, and takes each third out.
fn turn_over(time: u64, number: u64, mut pass: Pass) -> (Pass, u64) {
    let mut sum = 0;
    for i in 0..300 {
        let key = key_of(number, time * 300 + i);
        assert_eq!(again(|| pass.insert(key, value_of(key))), Ok(None));
        if i % 3 == 0 {
            assert_eq!(again(|| pass.remove(key)), Ok(Some(value_of(key))));
        } else {
            sum += key;
        }
    }
    (pass, sum)
}

/// Ten times four threads work, and it is renewed: what is left is what went in and did not come
/// out.
fn renew_ten_times(mut passes: Vec<Pass>) -> Pass {
    const EACH: Limits = Limits { nodes: 8000, scx: 4000, tries: 1 };
    let mut sum = 0;
    for time in 0..10 {
        let threads: Vec<_> = (0..THREADS)
            .zip(passes)
            .map(|(t, pass)| std::thread::spawn(move || turn_over(time, t, pass)))
            .collect();
        let mut ended: Vec<_> = threads.into_iter().map(|t| t.join().unwrap()).collect();
        sum += ended.iter().map(|(_, sum)| sum).sum::<u64>();
        let (last, _) = ended.pop().unwrap();
        let last = match last.renew(4, EACH) {
            Err(RenewFault::Close(CloseFault::Shared(last))) => last,
            _ => panic!("renewed while shared"),
        };
        drop(ended);
        passes = last.renew(4, EACH).unwrap();
        let pairs: Vec<_> = passes[1].range(..).map(Result::unwrap).collect();
        assert_eq!(pairs.len() as u64, (time + 1) * THREADS * 200);
        assert_eq!(pairs.iter().map(|pair| pair.0).sum::<u64>(), sum);
        assert!(pairs.iter().all(|&(key, value)| value == value_of(key)));
    }
    passes.pop().unwrap()
}

#[test]
fn ten_renewals() {
    let tree = renew_ten_times(make(4, MOST).unwrap());
    let trie = renew_ten_times(make_trie(4, MOST).unwrap());
    // of the shape that it was: beside a full leaf a key takes three nodes, in a trie a far one two
    for (mut pass, nodes) in [(tree, 3), (trie, 2)] {
        let before = pass.left().nodes;
        assert_eq!(pass.insert(1 << 63, 6), Ok(None));
        assert_eq!(before - pass.left().nodes, nodes);
    }
}

type Begin = fn(usize, Limits, Vec<(u64, u128)>) -> Result<Vec<Pass>, Fault>;

#[test]
fn pairs_to_begin_with() {
    let begins: [Begin; 2] = [of_pairs, trie_of_pairs];
    let each = Limits { nodes: 30, scx: 10, tries: 1 };
    for count in [0, 1, 4, 5, 100, 10_000] {
        let pairs: Vec<_> = (0..count).map(|i| (3 * i, value_of(3 * i))).collect();
        for begin in begins {
            let mut passes = begin(2, each, pairs.clone()).unwrap();
            assert!(pairs.iter().all(|&(key, value)| passes[1].get(key) == Some(value)));
            assert_eq!((passes[0].get(1), passes[0].left().nodes), (None, 30));
            let mut pass = passes.remove(0);
            assert_eq!(pass.insert(1, 1), Ok(None));
            drop(passes);
            let left = pass.close().unwrap(); // more than the passes have nodes
            assert_eq!(left.len(), pairs.len() + 1);
            assert!(left.into_iter().filter(|pair| pair.0 != 1).eq(pairs.iter().copied()));
        }
    }
    for begin in begins {
        assert_eq!(begin(1, each, vec![(1, 1), (1, 2)]).err(), Some(Fault::Order));
        assert_eq!(begin(33, each, vec![(1, 1)]).err(), Some(Fault::Limits));
        assert_eq!(begin(0, each, vec![(1, 1)]).err(), Some(Fault::Limits));
        assert_eq!(begin(32, MOST, vec![(1, 1)]).err(), Some(Fault::TooMany));
    }
}

/// Far more changes than a share has room for: each pass rests, the last is away meanwhile.
#[test]
fn one_that_lasts() {
    for make in [make_lasting, make_lasting_trie] {
        let mut passes = make(4, Limits { nodes: 64, scx: 64, tries: 1 }).unwrap();
        let away = passes.pop().unwrap().away();
        std::thread::scope(|s| {
            for (key, mut pass) in (0..).zip(passes) {
                s.spawn(move || {
                    for time in 0..3000 {
                        while pass.insert(key, time).is_err() {
                            pass.rest();
                        }
                        pass.rest();
                    }
                });
            }
        });
        let mut pass = away.back();
        assert_eq!((pass.get(1), pass.rest()), (Some(2999), None));
        assert_eq!(pass.close().unwrap(), [(0, 2999), (1, 2999), (2, 2999)]);
    }
    let mut pass = make(1, Limits::for_changes(10, 10)).unwrap().remove(0).away().back();
    assert_eq!((pass.rest(), pass.insert(5, 50)), (None, Ok(None)));
}

/// A leaf of four pairs is one node, and what it replaced comes back.
#[test]
fn more_pairs_than_nodes() {
    let mut pass = make_lasting_trie(1, Limits { nodes: 9, scx: 9, tries: 1 }).unwrap().remove(0);
    for key in 0..12 {
        assert_eq!(pass.insert(key, 50), Ok(None));
        for _ in 0..8 {
            pass.rest();
        }
    }
    assert_eq!(pass.close().unwrap(), (0..12).map(|key| (key, 50)).collect::<Vec<_>>());
}
