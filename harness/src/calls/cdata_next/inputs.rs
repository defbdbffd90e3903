//! Texts and cursors for CDATA pieces.

use super::answer::cursors;
use crate::arguments::{Arguments, Sink, LONGEST_TEXT};
use crate::inputs::sequences::every_sequence;
use crate::inputs::sizes::{PAGE, SHORT_LENGTHS};
use crate::inputs::text::{woven, Mix, MIXES};
use crate::inputs::woven::Subject;
use crate::lent::Cursor;
use crate::random::Random;

pub struct Cdata;

/// Any of them means finished, also where the low byte or the low half is 0.
const FLAGS: [u64; 9] = [
    1,
    2,
    0xFF,
    0x100,
    0x8000,
    1 << 31,
    1 << 32,
    1 << 63,
    u64::MAX,
];

impl Subject for Cdata {
    const PIECES: &'static [&'static [u8]] = &[
        b"]",
        b">",
        b"[",
        b"a",
        "é".as_bytes(),
        b"]]>",
        "😀".as_bytes(),
    ];
    const BROKEN: &'static [&'static [u8]] = &[b"\xC3", b"\xED\xA0\x80"];
    const MOST_PIECES: usize = 5;
    const BYTES: &'static [u8] = b"]>[a\xC3\xA9";

    fn seams(random: &mut Random, sink: &mut Sink) {
        let texts: [&str; 12] = [
            "",
            "]]>",
            "]]>]]>",
            "]]]>",
            "]>]]",
            "é]]>",
            "]]é>",
            "]]>>",
            "a]]>b",
            "<![CDATA[x]]>",
            "]]]]>>",
            "😀",
        ];
        for text in texts {
            Self::each(Arguments::text(text.as_bytes()), sink);
        }
        for broken in Self::BROKEN {
            sink(Arguments::text(broken));
            sink(at(9, 1, Arguments::text(broken)));
            sink(Arguments::text(&[b"]]>", *broken].concat()));
        }
        for offset in [1 << 32, u64::MAX] {
            sink(at(offset, 0, Arguments::text(b"]]>")));
            sink(at(offset, 1, Arguments::text(b"]]>")));
        }
        // Every flag: on "no more", on 20, and on a refusal of the text.
        for flag in FLAGS {
            sink(at(0, flag, Arguments::text(b"]]>")));
            sink(at(4, flag, Arguments::text(b"]]>")));
            sink(at(1, flag, Arguments::text("é".as_bytes())));
            sink(at(0, flag, Arguments::text(b"\xC3")));
        }
        for gap in [1, 3, 10] {
            let text = woven(random, Mix::Dense, Self::PIECES, gap, 100);
            iterate(Arguments::text(&text), sink);
            for _ in 0..4 {
                Self::one(random, Arguments::text(&text), sink);
            }
        }
    }

    /// Every offset, also inside characters and past the end, not finished and finished.
    fn each(arguments: Arguments, sink: &mut Sink) {
        for offset in 0..=arguments.text.len() as u64 + 1 {
            sink(at(offset, 0, arguments));
            sink(at(offset, FLAGS[offset as usize % FLAGS.len()], arguments));
        }
    }

    fn one(random: &mut Random, arguments: Arguments, sink: &mut Sink) {
        let offset = match random.below(4) {
            0 | 1 => 0,
            2 => random.below(arguments.text.len() + 2),
            _ => arguments.text.len() - random.below(arguments.text.len().min(20) + 1),
        };
        let finished = match random.below(8) {
            0 => 1 << random.below(64),
            1 => random.byte().into(),
            _ => 0,
        };
        sink(at(offset as u64, finished, arguments));
    }
}

fn at(offset: u64, finished: u64, arguments: Arguments) -> Arguments {
    Arguments {
        cursor: Cursor { offset, finished },
        ..arguments
    }
}

/// Refused by its length, with every flag.
pub fn too_long(_: &mut Random, sink: &mut Sink) {
    let text = vec![b'a'; LONGEST_TEXT + 1];
    for flag in FLAGS {
        sink(at(0, flag, Arguments::text(&text)));
    }
}

/// Every cursor that the text's own iteration comes to, the last two finished.
fn iterate(arguments: Arguments, sink: &mut Sink) {
    let text = std::str::from_utf8(arguments.text).expect("well-formed pieces");
    let cursors = cursors(text);
    for &cursor in cursors.iter().chain(cursors.last()) {
        sink(Arguments {
            cursor,
            ..arguments
        });
    }
}

/// Whole iterations; for texts of block lengths every other cursor too.
pub fn every_iteration(random: &mut Random, sink: &mut Sink) {
    for length in 0..=9 {
        every_sequence(b"]>a", length, &mut |text| {
            iterate(Arguments::text(text), sink);
        });
    }
    for length in SHORT_LENGTHS.chain([PAGE - 1, PAGE, PAGE + 1]) {
        for mix in MIXES {
            for gap in [1, 3, 10, 60] {
                let text = woven(random, mix, Cdata::PIECES, gap, length);
                iterate(Arguments::text(&text), sink);
                if length < PAGE - 1 {
                    Cdata::each(Arguments::text(&text), sink);
                }
            }
        }
    }
}
