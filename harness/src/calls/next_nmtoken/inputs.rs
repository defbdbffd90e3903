//! Texts and offsets for tokens.

use super::answer::offsets;
use crate::arguments::{Arguments, Sink, LONGEST_TEXT};
use crate::inputs::sequences::every_sequence;
use crate::inputs::sizes::{PAGE, SHORT_LENGTHS};
use crate::inputs::text::{woven, MIXES};
use crate::inputs::woven::Subject;
use crate::random::Random;

pub struct Token;

impl Subject for Token {
    const PIECES: &'static [&'static [u8]] = &[
        b" ",
        b"  ",
        b"a",
        b"\t",
        b"\n",
        b"\r",
        "é".as_bytes(),
        "\u{A0}".as_bytes(),
        "😀".as_bytes(),
    ];
    const BROKEN: &'static [&'static [u8]] = &[b"\xC3", b"\xED\xA0\x80"];
    const MOST_PIECES: usize = 4;
    const BYTES: &'static [u8] = b" a\t\n\xC3\xA9";

    fn seams(random: &mut Random, sink: &mut Sink) {
        let texts = [
            "",
            " ",
            "a",
            "ab c",
            " a",
            "a ",
            "  ab   c d ",
            "a\tb\nc d",
            "é ½ 😀",
            "a\u{A0}b",
        ];
        for text in texts {
            Self::each(Arguments::text(text.as_bytes()), sink);
        }
        for broken in Self::BROKEN {
            sink(Arguments::text(broken));
            sink(at(9, Arguments::text(broken)));
            sink(Arguments::text(&[b"a ", *broken].concat()));
        }
        for offset in [1 << 32, 1 << 63, u64::MAX] {
            sink(at(offset, Arguments::text(b"a b")));
        }
        for gap in [1, 3, 10] {
            let text = woven(random, MIXES[0], Self::PIECES, gap, 100);
            iterate(Arguments::text(&text), sink);
            for _ in 0..4 {
                Self::one(random, Arguments::text(&text), sink);
            }
        }
    }

    /// Every offset, also inside characters and past the end.
    fn each(arguments: Arguments, sink: &mut Sink) {
        for offset in 0..=arguments.text.len() as u64 + 1 {
            sink(at(offset, arguments));
        }
    }

    fn one(random: &mut Random, arguments: Arguments, sink: &mut Sink) {
        let offset = match random.below(4) {
            0 | 1 => 0,
            2 => random.below(arguments.text.len() + 2),
            _ => arguments.text.len() - random.below(arguments.text.len().min(20) + 1),
        };
        sink(at(offset as u64, arguments));
    }
}

fn at(offset: u64, arguments: Arguments) -> Arguments {
    Arguments {
        offset,
        ..arguments
    }
}

/// Refused by its length, whatever the offset.
pub fn too_long(_: &mut Random, sink: &mut Sink) {
    let text = vec![b'a'; LONGEST_TEXT + 1];
    for offset in [0, 1, u64::MAX] {
        sink(at(offset, Arguments::text(&text)));
    }
}

/// Every offset that the text's own iteration comes to, the last one twice.
fn iterate(arguments: Arguments, sink: &mut Sink) {
    let text = std::str::from_utf8(arguments.text).expect("well-formed pieces");
    let offsets = offsets(text);
    for &offset in offsets.iter().chain(offsets.last()) {
        sink(at(offset, arguments));
    }
}

/// Whole iterations; for texts of block lengths every other offset too.
pub fn every_iteration(random: &mut Random, sink: &mut Sink) {
    for length in 0..=9 {
        every_sequence(b" a\n", length, &mut |text| {
            iterate(Arguments::text(text), sink);
        });
    }
    for length in SHORT_LENGTHS.chain([PAGE - 1, PAGE, PAGE + 1]) {
        for mix in MIXES {
            for gap in [1, 3, 10, 60] {
                let text = woven(random, mix, Token::PIECES, gap, length);
                iterate(Arguments::text(&text), sink);
                if length < PAGE - 1 {
                    Token::each(Arguments::text(&text), sink);
                }
            }
        }
    }
}
