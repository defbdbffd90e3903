//! Texts for the three trims: blanks are space, TAB, CR and LF.

use crate::arguments::{Arguments, Sink};
use crate::inputs::sizes::{BLOCK_ENDS, MEBIBYTE, PAGE, SHORT_LENGTHS};
use crate::inputs::text::{woven, Mix, MIXES};
use crate::inputs::woven::Subject;
use crate::random::Random;

pub struct Trim;

const BLANKS: &[u8] = b" \t\r\n";

impl Subject for Trim {
    /// The blanks, and characters that others take for blanks.
    const PIECES: &'static [&'static [u8]] = &[
        b" ",
        b"\t",
        b"\r",
        b"\n",
        b"a",
        b"\0",
        b"\x0B",
        b"\x0C",
        "\u{85}".as_bytes(),
        "\u{A0}".as_bytes(),
        "\u{3000}".as_bytes(),
    ];
    const BROKEN: &'static [&'static [u8]] = &[b"\x80", b"\xED\xA0\x80"];
    const MOST_PIECES: usize = 5;
    const BYTES: &'static [u8] = b" \t\r\na\xC2\xA0";

    fn seams(random: &mut Random, sink: &mut Sink) {
        let pieces = [Self::PIECES, Self::BROKEN].concat();
        sink(Arguments::text(b""));
        for piece in pieces {
            sink(Arguments::text(piece));
            sink(Arguments::text(&[b" ", piece].concat()));
            sink(Arguments::text(&[piece, b"\n"].concat()));
            sink(Arguments::text(&[b"\t \r", piece, b"\n  "].concat()));
            sink(Arguments::text(&[b"a", piece, b"b"].concat()));
        }
        for count in (2..=8).chain(BLOCK_ENDS) {
            let blanks = some_blanks(random, count);
            sink(Arguments::text(&blanks));
            sink(Arguments::text(&[&blanks, "é".as_bytes()].concat()));
            sink(Arguments::text(&["é".as_bytes(), &blanks].concat()));
            sink(Arguments::text(&[b"a", &blanks[..], b"b"].concat()));
            let (left, right) = blanks.split_at(random.below(count));
            sink(Arguments::text(&[left, b"a note", right].concat()));
        }
        for mix in MIXES {
            for gap in [1, 2, 10] {
                for length in [20, 100] {
                    let text = woven(random, mix, Self::PIECES, gap, length);
                    sink(Arguments::text(&text));
                }
            }
        }
    }

    fn each(arguments: Arguments, sink: &mut Sink) {
        sink(arguments);
    }

    fn one(_: &mut Random, arguments: Arguments, sink: &mut Sink) {
        sink(arguments);
    }
}

fn some_blanks(random: &mut Random, count: usize) -> Vec<u8> {
    (0..count).map(|_| random.pick(BLANKS)).collect()
}

/// Blanks on both sides of something or nothing, and blanks between two letters.
pub fn blanks_around(random: &mut Random, sink: &mut Sink) {
    for left in SHORT_LENGTHS {
        for right in SHORT_LENGTHS {
            let (left, right) = (some_blanks(random, left), some_blanks(random, right));
            for middle in ["", "a", "é", "\u{A0}", "a \n b", "\u{3000}"] {
                sink(Arguments::text(
                    &[&left, middle.as_bytes(), &right].concat(),
                ));
            }
            let length = random.below(70);
            let middle = woven(random, Mix::Mixed, &[], 1, length);
            sink(Arguments::text(&[left, middle, right].concat()));
        }
    }
}

pub fn long_blanks(random: &mut Random, sink: &mut Sink) {
    for length in (PAGE - 70..=PAGE + 70).chain(MEBIBYTE - 1..=MEBIBYTE + 1) {
        let blanks = some_blanks(random, length);
        sink(Arguments::text(&blanks));
        for position in [0, length / 2, length - 1, random.below(length)] {
            for byte in [b'a', 0x80] {
                let mut text = blanks.clone();
                text[position] = byte;
                sink(Arguments::text(&text));
            }
        }
    }
}
