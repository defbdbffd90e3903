//! Texts for character numbers: what stands between `&#` and `;`.

use crate::arguments::{Arguments, Place, Sink, ALIGNMENTS};
use crate::inputs::number::{written, written_to_length, Form, FORMS};
use crate::inputs::sequences::every_sequence;
use crate::inputs::sizes::{random_length, MEBIBYTE, PAGE, SHORT_LENGTHS};
use crate::inputs::spoiled::{every_spoiled, spoil, spoil_at_random, Spoil};
use crate::random::Random;

/// The edges of the digits' ranges, the bytes beside them, marks, signs, a character of 2 bytes.
const TROUBLE: &[u8] = b"019afAFgG`@xX+- \0:/\xC3\xA9";

/// Values at which the answer changes, or would if the sum were kept in too few bits.
const EDGES: [u128; 20] = [
    1,
    9,
    0x7F,
    0xFF,
    0x7FF,
    0xD7FF,
    0xDFFF,
    0xFFFF,
    0x1_0000,
    0x10_FFFF,
    0x7FFF_FFFF,
    0xFFFF_FFFF,
    0x1_0000_0041,
    0x9_FFFF_FFFF,
    0xF_FFFF_FFFF,
    99_999_999_999,
    0xFFFF_FFFF_FFFF_FFFF,
    0x1_0000_0000_0000_0041,
    0xFFFF_FFFF_FFFF_FFFF_FFFF,
    0x1_0000_0000_0000_0000_0000_0041,
];

pub fn seams(_: &mut Random, sink: &mut Sink) {
    seams_of_document_01(sink);
    for edge in EDGES {
        for value in [edge - 1, edge, edge + 1] {
            for form in FORMS {
                sink(Arguments::text(&written(value, form, 0)));
            }
        }
    }
    for value in [0, 0x41, 0xD800, 0x10_FFFF, 0x11_0000, 0xFFFF_FFFF, 1 << 32] {
        for zeros in [1, 7, 8, 32, 63, 280] {
            sink(Arguments::text(&written(value, Form::Decimal, zeros)));
            sink(Arguments::text(&written(
                value,
                Form::UpperHexadecimal,
                zeros,
            )));
        }
    }
    for &byte in TROUBLE {
        sink(Arguments::text(&[byte]));
        sink(Arguments::text(&[b'x', byte]));
        sink(Arguments::text(&[byte, b'1']));
        sink(Arguments::text(&[b'6', byte, b'5']));
    }
}

/// The document's rows, and what tells the order of its checks.
fn seams_of_document_01(sink: &mut Sink) {
    let texts: [&[u8]; 26] = [
        b"",
        b"x41",
        b"65",
        b"+1",
        b"-1",
        b"X41",
        b"xD800",
        b"0",
        b"x",
        b"x0",
        b"x+41",
        b"x-41",
        b"xx41",
        b"x 41",
        b"0x41",
        b"+",
        b"-",
        b"++1",
        b"1+",
        b"65;",
        b"aF",
        b"xaF",
        b"\xD9\xA1",
        b"+\xFF",
        b"4294967296\x80",
        b"xg\xC3",
    ];
    texts
        .into_iter()
        .for_each(|text| sink(Arguments::text(text)));
    sink(Arguments::text(&[b'9'; 300]));
    sink(Arguments::text(&[b'x'; 300]));
    sink(Arguments::text(&[&[b'9'; 299][..], b"\xC3"].concat()));
}

pub fn every_short_text(_: &mut Random, sink: &mut Sink) {
    let bytes: Vec<u8> = (0..=255).collect();
    let mut give = |text: &[u8]| sink(Arguments::text(text));
    for length in 0..=2 {
        every_sequence(&bytes, length, &mut give);
    }
    for length in 3..=5 {
        every_sequence(TROUBLE, length, &mut give);
    }
}

/// Every character's number, the surrogates' and some above all of them.
pub fn every_character(_: &mut Random, sink: &mut Sink) {
    for value in 0..0x11_0400 {
        for form in FORMS {
            sink(Arguments::text(&written(value, form, 0)));
        }
    }
}

/// Values around the edges after each number of zeros, alone and before a last byte.
pub fn every_edge(_: &mut Random, sink: &mut Sink) {
    for value in EDGES.into_iter().flat_map(|edge| edge - 1..=edge + 2) {
        for zeros in SHORT_LENGTHS {
            for form in FORMS {
                let mut text = written(value, form, zeros);
                sink(Arguments::text(&text));
                text.push(0);
                for &byte in TROUBLE {
                    *text.last_mut().unwrap() = byte;
                    sink(Arguments::text(&text));
                }
            }
        }
    }
}

pub fn every_length_and_address(random: &mut Random, sink: &mut Sink) {
    const ROUNDS: usize = 8;
    for length in SHORT_LENGTHS {
        for address in 0..ALIGNMENTS * ROUNDS {
            let place = Place::At(address % ALIGNMENTS);
            let mut text = random_number(random, length);
            sink(Arguments::at(place, &text));
            spoil_at_random(random, &mut text, TROUBLE);
            sink(Arguments::at(place, &text));
            let text = random_digits(random, length);
            sink(Arguments::at(place, &text));
        }
    }
}

/// A value, of a random size, in a text so long where it is not longer.
fn random_number(random: &mut Random, length: usize) -> Vec<u8> {
    let value = random.next() >> random.below(64);
    let form = random.pick(&FORMS);
    written_to_length(u128::from(value), form, length)
}

fn random_digits(random: &mut Random, length: usize) -> Vec<u8> {
    let alphabet = random.pick(&[b"0123456789" as &[u8], b"0123456789abcdefABCDEF", TROUBLE]);
    let mut text: Vec<u8> = (0..length).map(|_| random.pick(alphabet)).collect();
    if length > 0 && random.below(2) == 0 {
        text[0] = b'x';
    }
    text
}

pub fn damaged(_: &mut Random, sink: &mut Sink) {
    for value in [0, 0x41, 0xD800, 0x10_FFFF, 0xFFFF_FFFF, 1 << 32] {
        for form in FORMS {
            for length in [8, 16, 33, 65, 130, 200] {
                every_spoiled(&written_to_length(value, form, length), TROUBLE, sink);
            }
        }
    }
}

pub fn long(random: &mut Random, sink: &mut Sink) {
    for length in PAGE - 70..=PAGE + 70 {
        some_spoiled(random, length, 20, sink);
    }
    for length in MEBIBYTE - 1..=MEBIBYTE + 1 {
        some_spoiled(random, length, 8, sink);
    }
}

/// Good texts, each followed by the same spoiled at its end or at a random place.
fn some_spoiled(random: &mut Random, length: usize, count: usize, sink: &mut Sink) {
    for index in 0..count {
        let mut text = match index % 4 {
            0 => random_digits(random, length),
            _ => random_number(random, length),
        };
        sink(Arguments::text(&text));
        if index < count / 2 {
            spoil(&mut text, length - 1, Spoil::Replace, random.byte());
        } else {
            spoil_at_random(random, &mut text, TROUBLE);
        }
        sink(Arguments::text(&text));
    }
}

pub fn random(random: &mut Random, sink: &mut Sink) {
    for _ in 0..4096 {
        let length = random_length(random);
        let mut text = match random.below(4) {
            0 => random_digits(random, length),
            _ => random_number(random, length),
        };
        for _ in 0..random.below(3) {
            spoil_at_random(random, &mut text, TROUBLE);
        }
        sink(Arguments::text(&text));
    }
}
