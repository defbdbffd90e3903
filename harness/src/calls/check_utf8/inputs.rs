//! Texts for the check of UTF-8: RFC 3629, section 4.

use crate::arguments::{Arguments, Place, Sink, ALIGNMENTS};
use crate::inputs::sequences::every_sequence;
use crate::inputs::sizes::{random_length, BLOCK_ENDS, MEBIBYTE, PAGE, SHORT_LENGTHS};
use crate::inputs::spoiled::{every_spoiled, spoil, spoil_at_random, Spoil, SPOILS};
use crate::inputs::text::{text, Mix, MIXES};
use crate::random::Random;

/// Bytes at both sides of every boundary in the standard's table.
const TROUBLE: [u8; 25] = [
    0x00, b'a', 0x7F, 0x80, 0x8F, 0x90, 0x9F, 0xA0, 0xBF, 0xC0, 0xC1, 0xC2, 0xDF, 0xE0, 0xE1, 0xEC,
    0xED, 0xEE, 0xEF, 0xF0, 0xF1, 0xF3, 0xF4, 0xF5, 0xFF,
];
const FIRST_LEAD: u8 = 0xC0;

/// Numbers at both sides of every boundary: of the widths, the standard's rows, the surrogates.
const EDGES: [u32; 26] = [
    0x00, 0x7F, 0x80, 0x7FF, 0x800, 0xFFF, 0x1000, 0xCFFF, 0xD000, 0xD7FF, 0xD800, 0xDBFF, 0xDC00,
    0xDFFF, 0xE000, 0xFFFD, 0xFFFF, 0x1_0000, 0x3_FFFF, 0x4_0000, 0xF_FFFF, 0x10_0000, 0x10_FFFF,
    0x11_0000, 0x13_FFFF, 0x1F_FFFF,
];

/// A number of at most `bits(width)` bits in so many bytes, whether the standard allows it or not.
fn encoded(number: u32, width: usize) -> Vec<u8> {
    let mark = [0x00, 0xC0, 0xE0, 0xF0][width - 1];
    let lead = mark | (number >> (6 * (width - 1))) as u8;
    let places = (0..width - 1).rev();
    let rest = places.map(|place| 0x80 | (number >> (6 * place)) as u8 & 0x3F);
    std::iter::once(lead).chain(rest).collect()
}

fn bits(width: usize) -> u32 {
    [7, 11, 16, 21][width - 1]
}

pub fn seams(random: &mut Random, sink: &mut Sink) {
    sink(Arguments::text(&[]));
    every_edge(sink);
    every_lead_and_second(sink);
    every_piece_at_block_ends(sink);
    for mix in MIXES {
        for length in [64, 299] {
            let good = text(random, mix, length);
            sink(Arguments::text(&good));
            for way in SPOILS {
                let mut spoiled = good.clone();
                let position = random.below(length);
                spoil(&mut spoiled, position, way, random.pick(&TROUBLE));
                sink(Arguments::text(&spoiled));
            }
        }
    }
}

/// The edges in every width, so overlong too, whole and cut, alone and between ASCII.
fn every_edge(sink: &mut Sink) {
    for width in 1..=4 {
        for number in EDGES.into_iter().filter(|n| n >> bits(width) == 0) {
            let whole = encoded(number, width);
            for cut in 1..=width {
                sink(Arguments::text(&whole[..cut]));
                sink(Arguments::text(&[b"a", &whole[..cut], b"z"].concat()));
            }
        }
    }
}

/// What may follow a lead byte depends on it; the bytes after that do not.
fn every_lead_and_second(sink: &mut Sink) {
    for lead in TROUBLE.into_iter().filter(|&b| b >= FIRST_LEAD) {
        for second in [0x7F, 0x80, 0x8F, 0x90, 0x9F, 0xA0, 0xBF, 0xC0] {
            let width = match lead {
                FIRST_LEAD..=0xDF => 2,
                0xE0..=0xEF => 3,
                _ => 4,
            };
            let bytes = [lead, second, 0x80, 0xBF];
            sink(Arguments::text(&bytes[..width]));
        }
    }
}

fn every_piece_at_block_ends(sink: &mut Sink) {
    let pieces: [&[u8]; 7] = [
        "é".as_bytes(),
        "€".as_bytes(),
        "😀".as_bytes(),
        b"\x80",
        b"\xC3",
        b"\xED\xA0\x80",
        b"\xFF",
    ];
    for at in BLOCK_ENDS {
        for piece in pieces {
            let mut text = vec![b'a'; 80];
            text.splice(at..at, piece.iter().copied());
            sink(Arguments::text(&text));
        }
    }
}

pub fn every_short_text(_: &mut Random, sink: &mut Sink) {
    let bytes: Vec<u8> = (0..=255).collect();
    let mut give = |text: &[u8]| sink(Arguments::text(text));
    for length in 0..=3 {
        every_sequence(&bytes, length, &mut give);
    }
    every_sequence(&TROUBLE, 4, &mut give);
}

/// Every number that 2, 3 and 4 bytes can hold: all characters, surrogates and overlong forms.
pub fn every_character(_: &mut Random, sink: &mut Sink) {
    for width in 2..=4 {
        for number in 0..1 << bits(width) {
            sink(Arguments::text(&encoded(number, width)));
        }
    }
}

/// Trouble in texts long enough for block loops.
pub fn every_sequence_in_context(_: &mut Random, sink: &mut Sink) {
    for character in ["a", "é", "€", "😀"] {
        for before in SHORT_LENGTHS {
            for length in 1..=3 {
                every_sequence_after(character, before, length, sink);
            }
        }
    }
    for before in (12..=15).chain(28..=31).chain(60..=63) {
        every_sequence_after("a", before, 4, sink);
    }
}

/// Every sequence after so many bytes of text, and followed by more than a block of 32.
fn every_sequence_after(character: &str, before: usize, length: usize, sink: &mut Sink) {
    let mut text = vec![b'a'; before % character.len()];
    text.extend(character.repeat(before / character.len()).bytes());
    let after = character.repeat(40 / character.len());
    every_sequence(&TROUBLE, length, &mut |sequence| {
        text.truncate(before);
        text.extend_from_slice(sequence);
        text.extend_from_slice(after.as_bytes());
        sink(Arguments::text(&text));
    });
}

pub fn every_length_and_address(random: &mut Random, sink: &mut Sink) {
    const ROUNDS: usize = 4;
    for length in SHORT_LENGTHS {
        for address in 0..ALIGNMENTS * ROUNDS {
            let place = Place::At(address % ALIGNMENTS);
            for mix in MIXES {
                let mut text = text(random, mix, length);
                sink(Arguments::at(place, &text));
                spoil_at_random(random, &mut text, &TROUBLE);
                sink(Arguments::at(place, &text));
            }
        }
    }
}

pub fn damaged(random: &mut Random, sink: &mut Sink) {
    const ROUNDS: usize = 8;
    for mix in MIXES {
        for length in [65, 130, 200].repeat(ROUNDS) {
            every_spoiled(&text(random, mix, length), &TROUBLE, sink);
        }
    }
}

pub fn long(random: &mut Random, sink: &mut Sink) {
    for mix in MIXES {
        for length in PAGE - 70..=PAGE + 70 {
            some_spoiled(random, mix, length, 10, sink);
        }
        for length in MEBIBYTE - 1..=MEBIBYTE + 1 {
            some_spoiled(random, mix, length, 4, sink);
        }
    }
}

/// A good text, then the same spoiled near its end and at random places.
fn some_spoiled(random: &mut Random, mix: Mix, length: usize, count: usize, sink: &mut Sink) {
    let good = text(random, mix, length);
    sink(Arguments::text(&good));
    for index in 0..count {
        let mut spoiled = good.clone();
        if index < count / 2 {
            let position = length - 1 - random.below(8);
            spoil(&mut spoiled, position, Spoil::Replace, random.byte());
        } else {
            spoil_at_random(random, &mut spoiled, &TROUBLE);
        }
        sink(Arguments::text(&spoiled));
    }
}

pub fn random(random: &mut Random, sink: &mut Sink) {
    for _ in 0..4096 {
        let length = random_length(random);
        let mut text = match random.below(8) {
            0 => (0..length).map(|_| random.byte()).collect(),
            1 => (0..length).map(|_| random.pick(&TROUBLE)).collect(),
            _ => {
                let mix = random.pick(&MIXES);
                text(random, mix, length)
            }
        };
        for _ in 0..random.below(3) {
            spoil_at_random(random, &mut text, &TROUBLE);
        }
        sink(Arguments::text(&text));
    }
}
