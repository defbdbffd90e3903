//! Texts for the escape levels.

use crate::arguments::{Arguments, Room, Sink, LONGEST_TEXT};
use crate::inputs::rooms::{each_room, some_room};
use crate::inputs::sizes::BLOCK_ENDS;
use crate::inputs::text::{woven, Mix};
use crate::inputs::woven::Subject;
use crate::random::Random;

pub struct Escape;

const LEVELS: [u8; 4] = [0, 1, 2, 3];

impl Subject for Escape {
    /// What some level escapes, other blanks, and characters of 1 to 4 bytes.
    const PIECES: &'static [&'static [u8]] = &[
        b"<",
        b">",
        b"&",
        b"'",
        b"\"",
        b"\r",
        b"\n",
        b"\t",
        b" ",
        b"a",
        "é".as_bytes(),
        "€".as_bytes(),
        "😀".as_bytes(),
    ];
    const BROKEN: &'static [&'static [u8]] = &[b"\xC3", b"\xED\xA0\x80"];
    const MOST_PIECES: usize = 4;
    const BYTES: &'static [u8] = b"<>&'\"\r\n\t a\xC3\xA9";

    fn seams(random: &mut Random, sink: &mut Sink) {
        for text in ["", "a<b\t", ">'", "<>&'\"\r\n\t ", "&lt;&#13;", "é<€&😀>"] {
            each_room(&LEVELS, Arguments::text(text.as_bytes()), sink);
        }
        for piece in Self::PIECES {
            for choice in LEVELS {
                sink(Arguments {
                    choice,
                    ..Arguments::text(piece)
                });
            }
        }
        for broken in Self::BROKEN {
            some_room(random, &LEVELS, Arguments::text(broken), sink);
            let text = [b"a<", *broken].concat();
            some_room(random, &LEVELS, Arguments::text(&text), sink);
        }
        for choice in [4, 255] {
            sink(Arguments {
                choice,
                ..Arguments::text(b"<\xC3")
            });
        }
        for at in BLOCK_ENDS {
            for piece in ["\"", "\t\t", "é&"] {
                let mut text = vec![b'a'; 80];
                text.splice(at..at, piece.bytes());
                some_room(random, &LEVELS, Arguments::text(&text), sink);
            }
        }
        for choice in LEVELS {
            for room in [Room::Exact, Room::Short] {
                sink(Arguments {
                    choice,
                    room,
                    ..Arguments::text(&[b'"'; 100])
                });
            }
            for gap in [1, 3, 10] {
                let text = woven(random, Mix::Mixed, Self::PIECES, gap, 100);
                some_room(random, &[choice], Arguments::text(&text), sink);
            }
        }
    }

    fn each(arguments: Arguments, sink: &mut Sink) {
        each_room(&LEVELS, arguments, sink);
    }

    fn one(random: &mut Random, arguments: Arguments, sink: &mut Sink) {
        some_room(random, &LEVELS, arguments, sink);
    }
}

/// The longest result of all: 6 bytes for each of the text's.
pub fn longest_result(_: &mut Random, sink: &mut Sink) {
    sink(Arguments::text(&vec![b'"'; LONGEST_TEXT]));
}
