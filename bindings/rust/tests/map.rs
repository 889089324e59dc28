//! Drawn calls of one pass, each beside the same of a `BTreeMap`.
// what pops from a `BTreeMap` came after the version of Rust that the crate asks for
#![allow(clippy::incompatible_msrv)]
use regnubas::{make, make_trie, Limits, Pass};
use std::collections::BTreeMap;
use std::ops::{Bound, RangeBounds};

struct Draws(u64);

impl Draws {
    fn below(&mut self, bound: u64) -> u64 {
        self.0 ^= self.0 << 13;
        self.0 ^= self.0 >> 7;
        self.0 ^= self.0 << 17;
        self.0 % bound
    }
}

/// Keys from both ends of the words.
fn key(draws: &mut Draws) -> u64 {
    let key = draws.below(150);
    if key % 2 == 1 {
        !key
    } else {
        key
    }
}

fn compare(pass: &mut Pass, map: &mut BTreeMap<u64, u128>, draws: &mut Draws) {
    let (key, value) = (key(draws), u128::from(draws.below(3)) << 64 | u128::from(draws.below(3)));
    let found = map.get(&key).copied();
    match draws.below(10) {
        0..=2 => assert_eq!(pass.insert(key, value), Ok(map.insert(key, value))),
        3 => {
            map.entry(key).or_insert(value);
            assert_eq!(pass.insert_new(key, value), Ok(found));
        }
        4 => assert_eq!(pass.remove(key), Ok(map.remove(&key))),
        5 => {
            if found == Some(value) {
                map.remove(&key);
            }
            assert_eq!(pass.remove_if(key, value), Ok(found));
        }
        6 => {
            if found == Some(value) {
                map.insert(key, value + 1);
            }
            assert_eq!(pass.replace_if(key, value, value + 1), Ok(found));
        }
        7 => {
            let first = map.iter().next().map(pair);
            first.map(|(key, _)| map.remove(&key));
            assert_eq!(pass.pop_first(), Ok(first));
        }
        8 => {
            let last = map.iter().next_back().map(pair);
            last.map(|(key, _)| map.remove(&key));
            assert_eq!(pass.pop_last(), Ok(last));
        }
        _ => assert_eq!(pass.contains_key(key), map.contains_key(&key)),
    }
    assert_eq!(pass.get(key), map.get(&key).copied());
    assert_eq!(pass.first_key_value(), Ok(map.iter().next().map(pair)));
    let below = map.range(..key).next_back();
    assert_eq!(pass.predecessor(key), Ok(below.map(pair)));
    let above = map.range((Bound::Excluded(key), Bound::Unbounded)).next();
    assert_eq!(pass.successor(key), Ok(above.map(pair)));
}

fn pair((&key, &value): (&u64, &u128)) -> (u64, u128) {
    (key, value)
}

fn has_same(pass: &mut Pass, map: &BTreeMap<u64, u128>, keys: impl RangeBounds<u64> + Clone) {
    let found: Vec<_> = pass.range(keys.clone()).map(Result::unwrap).collect();
    let wanted: Vec<_> = map.iter().map(pair).filter(|pair| keys.contains(&pair.0)).collect();
    assert_eq!(found, wanted);
    assert_eq!(pass.snapshot(keys, 9).unwrap(), wanted[..wanted.len().min(9)]);
}

#[test]
fn drawn_calls() {
    let mut draws = Draws(88172645463325252);
    for round in 0..10 {
        let make = if round % 2 == 0 { make } else { make_trie };
        let mut pass = make(1, Limits::for_changes(2000, 2000)).unwrap().remove(0);
        let mut map = BTreeMap::new();
        for _ in 0..2000 {
            compare(&mut pass, &mut map, &mut draws);
        }
        assert_eq!(pass.close().unwrap(), map.into_iter().collect::<Vec<_>>());
    }
}

#[test]
fn ranges() {
    let mut draws = Draws(11400714819323198485);
    for pairs in [0, 1, 63, 64, 65, 128, 129, 500] {
        let mut pass = make(1, Limits::for_changes(pairs, pairs)).unwrap().remove(0);
        let mut map = BTreeMap::new();
        while map.len() < pairs as usize {
            let key = draws.below(2000);
            let key = if key % 2 == 1 { !key } else { key };
            assert_eq!(pass.insert(key, key.into()), Ok(map.insert(key, key.into())));
        }
        for _ in 0..50 {
            let (low, high) = (key(&mut draws), key(&mut draws));
            has_same(&mut pass, &map, low..);
            has_same(&mut pass, &map, ..high);
            has_same(&mut pass, &map, low..high);
            has_same(&mut pass, &map, low..=high);
            has_same(&mut pass, &map, (Bound::Excluded(low), Bound::Excluded(high)));
        }
        has_same(&mut pass, &map, ..);
        has_same(&mut pass, &map, ..0);
        has_same(&mut pass, &map, ..=0);
        has_same(&mut pass, &map, u64::MAX..);
        has_same(&mut pass, &map, (Bound::Excluded(u64::MAX), Bound::Unbounded));
        assert_eq!(pass.into_iter().count(), map.len());
    }
}

#[test]
fn a_full_chunk_up_to_the_last_key() {
    let mut pass = make(1, Limits::for_changes(64, 64)).unwrap().remove(0);
    let keys = u64::MAX - 63..=u64::MAX;
    for key in keys.clone() {
        assert_eq!(pass.insert(key, 0), Ok(None));
    }
    assert!(pass.range(..).map(|pair| pair.unwrap().0).eq(keys));
}

/// So many changes that nothing is left of what `for_changes` has reckoned without lost tries.
#[test]
fn limits_are_enough() {
    let mut draws = Draws(7);
    for (changes, new_keys) in [(0, 0), (1, 1), (2000, 1), (1000, 1000), (2000, 700)] {
        let doubled = Limits::for_changes(changes, new_keys);
        let mut pass =
            make(1, Limits { nodes: doubled.nodes / 2, scx: doubled.scx / 2, ..doubled })
                .unwrap()
                .remove(0);
        let mut keys = Vec::new();
        while keys.len() < new_keys as usize {
            let key = draws.below(1 << 40);
            if pass.insert(key, 0).unwrap().is_none() {
                keys.push(key);
            }
        }
        for i in new_keys..changes {
            pass.insert(keys[i as usize % keys.len()], i.into()).unwrap();
        }
        assert_eq!(pass.left().scx, 0);
    }
}
