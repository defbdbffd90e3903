//! Lists of tokens: spaces, what becomes one, and what does not.

use super::documented::ROWS;
use crate::arguments::{Arguments, Sink, ROOMS};
use crate::draft::Draft;
use crate::inputs::attribute::Attribute;
use crate::inputs::rooms::random_room;
use crate::inputs::sequences::every_sequence;
use crate::inputs::sizes::BLOCK_ENDS;
use crate::inputs::text::{woven, Mix};
use crate::inputs::woven::Subject;
use crate::random::Random;
use std::sync::OnceLock;

pub struct Tokens;

/// Texts with spaces at their ends and without, marked and not.
fn few() -> &'static [Draft] {
    static FEW: OnceLock<[Draft; 4]> = OnceLock::new();
    FEW.get_or_init(|| {
        let spaces = Draft::of(&[("e", " "), ("a", "  x \t"), ("n", "&#10;"), ("s", "&e;&e;")]);
        let bare = Draft::of(&[("e", ""), ("a", "x\r\ny"), ("n", "&#32;"), ("s", "&#9; ")]);
        [spaces.clone(), spaces.marked(), bare.clone(), bare.marked()]
    })
}

impl Subject for Tokens {
    const PIECES: &'static [&'static [u8]] = &[
        b" ",
        b"  ",
        b"a",
        b"\t",
        b"\r\n",
        b"&#32;",
        b"&#10;",
        b"&#9;",
        b"&e;",
        b"&a;",
        b"&s;",
        "\u{85}".as_bytes(),
        "\u{A0}".as_bytes(),
        "\u{2003}".as_bytes(),
    ];
    const BROKEN: &'static [&'static [u8]] = &[b"\xC2"];
    const MOST_PIECES: usize = 4;
    const BYTES: &'static [u8] = b" \t\n&;a\xC2\xA0";

    /// The documents' rows, and those of attribute values; pairs of spaces around the ends of blocks; every pair of rooms.
    fn seams(random: &mut Random, sink: &mut Sink) {
        ROWS.iter().for_each(|row| row.give(sink));
        Attribute::seams(random, sink);
        for at in BLOCK_ENDS {
            for piece in [" ", "  ", "   ", "\t\n", " &#32;", " &#10; "] {
                let mut text = vec![b'a'; 80];
                text.splice(at..at, piece.bytes());
                sink(Arguments::text(&text));
                sink(Arguments::text(&text[..at + piece.len()]));
                sink(Arguments::text(&text[at..]));
            }
        }
        for room in ROOMS {
            for scratch in ROOMS {
                for text in ["  a  b ", "   ", "a", " &e;x"] {
                    sink(Arguments {
                        room,
                        scratch,
                        table: few()[0].table(),
                        ..Arguments::text(text.as_bytes())
                    });
                }
            }
        }
        for gap in [1, 3, 10] {
            let text = Self::text(random, Mix::Ascii, gap, 100);
            Self::one(random, Arguments::text(&text), sink);
        }
    }

    /// Each of the few tables under each version, the rooms in turn.
    fn each(arguments: Arguments, sink: &mut Sink) {
        for choice in [0, 2] {
            for (draft, turn) in few().iter().zip(arguments.text.len()..) {
                sink(Arguments {
                    choice,
                    table: draft.table(),
                    room: ROOMS[turn % ROOMS.len()],
                    ..arguments
                });
            }
        }
    }

    fn one(random: &mut Random, arguments: Arguments, sink: &mut Sink) {
        if random.below(4) == 0 {
            return Attribute::one(random, arguments, sink);
        }
        let draft = &few()[random.below(few().len())];
        sink(Arguments {
            choice: random.pick(&[0, 1, 2]),
            table: draft.table(),
            room: random_room(random),
            ..arguments
        });
    }

    /// Tokens of usual lengths with one space or more between them, or any of the pieces.
    fn text(random: &mut Random, mix: Mix, gap: usize, length: usize) -> Vec<u8> {
        const GAPS: &[&[u8]] = &[b" ", b" ", b"  ", b"     ", b"\n\t\t", b" &#32;"];
        match random.below(3) {
            0 => woven(random, mix, Self::PIECES, gap, length),
            1 => woven(random, mix, GAPS, gap, length),
            _ => woven(random, mix, &[b" "], gap, length),
        }
    }
}

/// Every text of so many spaces, LFs and letters: in the value and behind a reference.
pub fn every_spacing(_: &mut Random, sink: &mut Sink) {
    for length in 0..=9 {
        every_sequence(b" a\n", length, &mut |text| {
            sink(Arguments::text(text));
            let mut draft = Draft::default();
            draft.define(b"e", text);
            let draft = draft.ended().marked_if(length % 2 == 0);
            sink(Arguments {
                table: draft.table(),
                ..Arguments::text(b" &e; ")
            });
        });
    }
    for length in 10..=12 {
        every_sequence(b" a", length, &mut |text| sink(Arguments::text(text)));
    }
}

/// Runs of spaces of each length at each offset of a text of several blocks, and at both of its ends.
pub fn every_run(_: &mut Random, sink: &mut Sink) {
    for before in 0..70 {
        for spaces in (0..20).chain([31, 32, 33, 64]) {
            let text = [vec![b'a'; before], vec![b' '; spaces]].concat();
            sink(Arguments::text(&text));
            sink(Arguments::text(&[&text[..], b"bc"].concat()));
            sink(Arguments::text(&[&text[..], &vec![b'd'; 40]].concat()));
        }
    }
}
