//! Names that meet in an index: the hash of crates/table_index written again, so that inputs and rows can have many names of one hash. No
//! answer rests on it.

use crate::random::Random;
use std::collections::HashSet;

/// The letters of names that are made here.
const LETTERS: &[u8; 64] = b"abcdefghijklmnopqrstuvwxyzABCDEFGHIJKLMNOPQRSTUVWXYZ0123456789_-";
const FACTOR: u64 = 0x27d4_eb2f;
const HALF: u64 = 1 << 32;

pub fn hash(name: &[u8]) -> u64 {
    let length = name.len() as u64;
    let word = match name.len() {
        0..=7 => name
            .iter()
            .fold(0, |word, &byte| word << 8 | u64::from(byte)),
        8 => word_at(name, 0),
        _ => turned_words(name),
    };
    let mixed = (length + word % HALF + word / HALF * FACTOR) % HALF;
    mixed * 0x9e37_79b1 % HALF
}

/// The eights of a longer name, the last of which ends with it.
fn turned_words(name: &[u8]) -> u64 {
    let last = name.len() - 8;
    let starts = (0..last).step_by(8);
    starts.fold(word_at(name, last), |sum, start| {
        sum.rotate_left(7).wrapping_add(word_at(name, start))
    })
}

fn word_at(name: &[u8], start: usize) -> u64 {
    u64::from_le_bytes(name[start..start + 8].try_into().expect("eight bytes"))
}

/// So many names of eight letters, all of one hash: the first half is what the second one leaves of the sum.
pub fn names_of_one_hash(random: &mut Random, count: usize) -> Vec<String> {
    let sum = u64::from(u32::from_le_bytes(four_letters(random)));
    let (mut names, mut seen) = (vec![], HashSet::new());
    while names.len() < count {
        let end = four_letters(random);
        let product = u64::from(u32::from_le_bytes(end)) * FACTOR % HALF;
        let start = ((sum + HALF - product) % HALF) as u32;
        let name = [start.to_le_bytes(), end].concat();
        if name.iter().all(|byte| LETTERS.contains(byte)) && seen.insert(end) {
            names.push(String::from_utf8(name).expect("letters"));
        }
    }
    let mut hashes = names.iter().map(|name| hash(name.as_bytes()));
    let first = hashes.next();
    assert!(hashes.all(|hash| Some(hash) == first));
    names
}

fn four_letters(random: &mut Random) -> [u8; 4] {
    [(); 4].map(|()| random.pick(LETTERS))
}
