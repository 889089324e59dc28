//! The declarations of regnubas.h. Nothing compares them with the library.

use crate::{Limits, Share};

#[repr(C)]
pub struct RawPass {
    at: *mut u8,
    unused: [u64; 7],
}

impl RawPass {
    pub const EMPTY: RawPass = RawPass { at: std::ptr::null_mut(), unused: [0; 7] };
}

/// A value as C has it.
#[repr(C)]
#[derive(Clone, Copy, Default)]
pub struct Value {
    low: u64,
    high: u64,
}

impl Value {
    pub fn of(value: u128) -> Value {
        Value { low: value as u64, high: (value >> 64) as u64 }
    }

    pub fn number(self) -> u128 {
        u128::from(self.high) << 64 | u128::from(self.low)
    }
}

/// A pair as C has it.
#[repr(C)]
#[derive(Clone, Copy, Default)]
pub struct Pair {
    key: u64,
    value: Value,
}

impl Pair {
    pub fn of(key: u64, value: u128) -> Pair {
        Pair { key, value: Value::of(value) }
    }

    pub fn numbers(&self) -> (u64, u128) {
        (self.key, self.value.number())
    }
}

#[repr(C)]
pub struct Answer {
    pub value: Value,
    pub status: u32,
}

#[repr(C)]
pub struct Count {
    pub pairs: u64,
    pub status: u32,
}

extern "C" {
    pub fn regnubas_make_of_pairs(
        each: Limits,
        pairs: *const Pair,
        pairs_count: usize,
        passes: *mut RawPass,
        count: usize,
    ) -> u32;
    pub fn regnubas_make_trie_of_pairs(
        each: Limits,
        pairs: *const Pair,
        pairs_count: usize,
        passes: *mut RawPass,
        count: usize,
    ) -> u32;
    pub fn regnubas_make_lasting(each: Limits, passes: *mut RawPass, count: usize) -> u32;
    pub fn regnubas_make_lasting_trie(each: Limits, passes: *mut RawPass, count: usize) -> u32;
    pub fn regnubas_get(pass: *mut RawPass, key: u64) -> Answer;
    pub fn regnubas_insert(pass: *mut RawPass, key: u64, value: Value) -> Answer;
    pub fn regnubas_insert_new(pass: *mut RawPass, key: u64, value: Value) -> Answer;
    pub fn regnubas_delete(pass: *mut RawPass, key: u64) -> Answer;
    pub fn regnubas_delete_if(pass: *mut RawPass, key: u64, expected: Value) -> Answer;
    pub fn regnubas_replace_if(
        pass: *mut RawPass,
        key: u64,
        expected: Value,
        value: Value,
    ) -> Answer;
    pub fn regnubas_pop_first(pass: *mut RawPass, pair: *mut Pair) -> u32;
    pub fn regnubas_pop_last(pass: *mut RawPass, pair: *mut Pair) -> u32;
    pub fn regnubas_successor(pass: *mut RawPass, key: u64, pair: *mut Pair) -> u32;
    pub fn regnubas_predecessor(pass: *mut RawPass, key: u64, pair: *mut Pair) -> u32;
    pub fn regnubas_range(
        pass: *mut RawPass,
        low: u64,
        high: u64,
        pairs: *mut Pair,
        count: usize,
    ) -> Count;
    pub fn regnubas_rest(pass: *mut RawPass, other: *mut u32) -> u32;
    pub fn regnubas_away(pass: *mut RawPass) -> u32;
    pub fn regnubas_back(pass: *mut RawPass) -> u32;
    pub fn regnubas_left(pass: *mut RawPass) -> Share;
    pub fn regnubas_leave(pass: *mut RawPass);
    pub fn regnubas_close(pass: *mut RawPass, pairs: *mut Pair, count: usize) -> Count;
}
