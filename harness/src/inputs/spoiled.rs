//! Texts with one byte spoiled.

use crate::arguments::{Arguments, Sink};
use crate::random::Random;

/// Ways to spoil a text by one byte.
#[derive(Clone, Copy)]
pub enum Spoil {
    Flip,
    Replace,
    Insert,
    Drop,
    Truncate,
}

pub const SPOILS: [Spoil; 5] = [
    Spoil::Flip,
    Spoil::Replace,
    Spoil::Insert,
    Spoil::Drop,
    Spoil::Truncate,
];

/// Spoils the text at a position below its length. What `byte` means depends on the way.
pub fn spoil(text: &mut Vec<u8>, position: usize, way: Spoil, byte: u8) {
    match way {
        Spoil::Flip => text[position] ^= 1 << (byte % 8),
        Spoil::Replace => text[position] = byte,
        Spoil::Insert => text.insert(position, byte),
        Spoil::Drop => drop(text.remove(position)),
        Spoil::Truncate => text.truncate(position),
    }
}

/// Spoils the text, unless it is empty, mostly with bytes of the alphabet.
pub fn spoil_at_random(random: &mut Random, text: &mut Vec<u8>, alphabet: &[u8]) {
    if text.is_empty() {
        return;
    }
    let position = random.below(text.len());
    let byte = match random.below(4) {
        0 => random.byte(),
        _ => random.pick(alphabet),
    };
    spoil(text, position, random.pick(&SPOILS), byte);
}

/// Every text that comes of one spoiled byte, with the bytes of the alphabet put in.
pub fn every_spoiled(text: &[u8], alphabet: &[u8], sink: &mut Sink) {
    let mut spoiled = Vec::with_capacity(text.len() + 1);
    let mut give = |position: usize, way: Spoil, byte: u8| {
        spoiled.clear();
        spoiled.extend_from_slice(text);
        spoil(&mut spoiled, position, way, byte);
        sink(Arguments::text(&spoiled));
    };
    for position in 0..text.len() {
        (0..8).for_each(|bit| give(position, Spoil::Flip, bit));
        for &byte in alphabet {
            give(position, Spoil::Replace, byte);
            give(position, Spoil::Insert, byte);
        }
        give(position, Spoil::Drop, 0);
        give(position, Spoil::Truncate, 0);
    }
}
