//! `word_count FILE`: four threads count the words of a text in one dictionary, and then in a map
//! with a lock. It prints the twenty most frequent words with both counts, and how long each way
//! took: the least of five rounds.
//!
//! A key is the first twelve letters of a word, five bits each: so keys have the order of words.
use regnubas::{again, make, Fault, Limits, Pass};
use std::cmp::Reverse;
use std::collections::BTreeMap;
use std::error::Error;
use std::sync::Mutex;
use std::thread;
use std::time::{Duration, Instant};

type Counts = BTreeMap<u64, u128>;

const THREADS: usize = 4;
const ROUNDS: usize = 5;
const LETTERS: usize = 12;
const SHOWN: usize = 20;

fn key_of(word: &str) -> u64 {
    let letters = word.bytes().map(|letter| u64::from(letter & 31)).chain(std::iter::repeat(0));
    letters.take(LETTERS).fold(0, |key, letter| key << 5 | letter)
}

fn word_of(key: u64) -> String {
    let letters =
        (0..LETTERS).rev().map(|i| (key >> (5 * i) & 31) as u8).filter(|&letter| letter != 0);
    letters.map(|letter| char::from(b'a' - 1 + letter)).collect()
}

fn words_of(text: &str) -> Vec<u64> {
    text.split(|c: char| !c.is_ascii_alphabetic())
        .filter(|word| !word.is_empty())
        .map(key_of)
        .collect()
}

/// The words in four parts, as even as can be.
fn parts(words: &[u64]) -> impl Iterator<Item = &[u64]> {
    (0..THREADS).map(|t| &words[words.len() * t / THREADS..words.len() * (t + 1) / THREADS])
}

fn count_up(pass: &mut Pass, word: u64) -> Result<(), Fault> {
    let mut seen = again(|| pass.insert_new(word, 1))?;
    while let Some(count) = seen {
        let found = again(|| pass.replace_if(word, count, count + 1))?;
        if found == seen {
            break;
        }
        seen = found;
    }
    Ok(())
}

fn count_shared(words: &[u64]) -> Result<(Counts, Duration), Fault> {
    let changes = (words.len() / THREADS + 1) as u32;
    let mut passes = make(THREADS, Limits::for_changes(changes, changes))?;
    let start = Instant::now();
    thread::scope(|scope| {
        let threads: Vec<_> = passes
            .iter_mut()
            .zip(parts(words))
            .map(|(pass, part)| {
                scope.spawn(|| part.iter().try_for_each(|&word| count_up(pass, word)))
            })
            .collect();
        threads.into_iter().try_for_each(|thread| thread.join().expect("a thread has panicked"))
    })?;
    let time = start.elapsed();
    Ok((passes[0].range(..).collect::<Result<_, _>>()?, time))
}

fn count_locked(words: &[u64]) -> (Counts, Duration) {
    let counts = Mutex::new(Counts::new());
    let start = Instant::now();
    thread::scope(|scope| {
        for part in parts(words) {
            let counts = &counts;
            scope.spawn(move || {
                part.iter().for_each(|&word| *counts.lock().unwrap().entry(word).or_insert(0) += 1)
            });
        }
    });
    let time = start.elapsed();
    (counts.into_inner().unwrap(), time)
}

fn show_most_frequent(shared: &Counts, locked: &Counts) {
    let mut most: Vec<_> = shared.iter().collect();
    most.sort_by_key(|&(_, &count)| Reverse(count));
    println!("{:<12} {:>8} {:>8}", "word", "regnubas", "lock");
    for (word, count) in most.into_iter().take(SHOWN) {
        println!("{:<12} {count:>8} {:>8}", word_of(*word), locked[word]);
    }
}

fn main() -> Result<(), Box<dyn Error>> {
    let file = std::env::args().nth(1).ok_or("usage: word_count FILE")?;
    let words = words_of(&std::fs::read_to_string(file)?);
    let (shared, mut shared_time) = count_shared(&words)?;
    let (locked, mut locked_time) = count_locked(&words);
    for _ in 1..ROUNDS {
        let (again, time) = count_shared(&words)?;
        assert_eq!(again, locked);
        shared_time = shared_time.min(time);
        locked_time = locked_time.min(count_locked(&words).1);
    }
    show_most_frequent(&shared, &locked);
    println!(
        "{} words, {} of them different, {THREADS} threads: regnubas {:.2} ms, lock {:.2} ms",
        words.len(),
        shared.len(),
        1000.0 * shared_time.as_secs_f64(),
        1000.0 * locked_time.as_secs_f64(),
    );
    assert_eq!(shared, locked);
    Ok(())
}
