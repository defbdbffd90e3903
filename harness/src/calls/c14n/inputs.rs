//! Texts for the writers of Canonical XML.

use super::answer;
use crate::answer::Answer;
use crate::arguments::{Arguments, Room, Sink, LONGEST_TEXT, MOST_OPENINGS};
use crate::draft::Draft;
use crate::inputs::rooms::{each_room, some_room};
use crate::inputs::sequences::every_sequence;
use crate::inputs::sizes::{random_length, BLOCK_ENDS};
use crate::inputs::text::{woven, Mix, MIXES};
use crate::inputs::woven::Subject;
use crate::random::Random;

pub struct C14n;

/// Neither call has a level or a version.
const NONE: [u8; 1] = [0];

impl Subject for C14n {
    /// What one of the two replaces or a level of `escape` does, other blanks, and characters of 1 to 4 bytes.
    const PIECES: &'static [&'static [u8]] = &[
        b"<",
        b">",
        b"&",
        b"'",
        b"\"",
        b"\r",
        b"\n",
        b"\t",
        b" ",
        b"a",
        "\u{85}".as_bytes(),
        "\u{2028}".as_bytes(),
        "😀".as_bytes(),
    ];
    const BROKEN: &'static [&'static [u8]] = &[b"\xC3", b"\xED\xA0\x80"];
    const MOST_PIECES: usize = 4;
    const BYTES: &'static [u8] = b"<>&'\"\r\n\t a\xC3\xA9";

    fn seams(random: &mut Random, sink: &mut Sink) {
        for text in ["", "a<b\t", ">'", "<>&'\"\r\n\t ", "&#xD;&#13;", "é<€&😀>"] {
            each_room(&NONE, Arguments::text(text.as_bytes()), sink);
        }
        for piece in Self::PIECES {
            sink(Arguments::text(piece));
        }
        for broken in Self::BROKEN {
            some_room(random, &NONE, Arguments::text(broken), sink);
            let text = [b"a<", *broken].concat();
            some_room(random, &NONE, Arguments::text(&text), sink);
        }
        for at in BLOCK_ENDS {
            for piece in ["\"", "\t\t", "é&", "\r>"] {
                let mut text = vec![b'a'; 80];
                text.splice(at..at, piece.bytes());
                some_room(random, &NONE, Arguments::text(&text), sink);
            }
        }
        for byte in [b'"', b'\t', b'\r'] {
            for room in [Room::Exact, Room::Short] {
                sink(Arguments {
                    room,
                    ..Arguments::text(&[byte; 100])
                });
            }
        }
        for gap in [1, 3, 10] {
            let text = woven(random, Mix::Mixed, Self::PIECES, gap, 100);
            some_room(random, &NONE, Arguments::text(&text), sink);
        }
    }

    fn each(arguments: Arguments, sink: &mut Sink) {
        each_room(&NONE, arguments, sink);
    }

    fn one(random: &mut Random, arguments: Arguments, sink: &mut Sink) {
        some_room(random, &NONE, arguments, sink);
    }
}

/// The longest results: 6 and 5 bytes for each of the text's.
pub fn longest_results(_: &mut Random, sink: &mut Sink) {
    for byte in [b'"', b'&'] {
        sink(Arguments::text(&vec![byte; LONGEST_TEXT]));
    }
}

/// What the attribute writer gives, as values to normalize under XML 1.0 with an empty table, marked or not, at depth 1 with any limit:
/// each has to be the value written, without an opening.
pub fn attribute_forms(normalized: fn(&Arguments) -> Answer, random: &mut Random, sink: &mut Sink) {
    let tables = [Draft::of(&[]), Draft::of(&[]).marked()];
    let mut turn = 0;
    each_value(random, &mut |value| {
        turn += 1;
        let form = answer::attribute(&Arguments::text(value));
        let arguments = Arguments {
            choice: (turn % 2) as u8,
            depth: 1,
            limit: [0, 1, MOST_OPENINGS][turn % 3],
            table: tables[turn / 2 % 2].table(),
            ..Arguments::text(&form.written)
        };
        let read = normalized(&arguments);
        assert_eq!((read.number, read.second), (0, 0), "a form is accepted");
        assert!(read.written == value, "a form is read as its value");
        sink(arguments);
    });
}

/// What the text writer gives, under the line ends of XML 1.0: each has to stay as it is.
pub fn text_forms_by_lines(lines: fn(&Arguments) -> Answer, random: &mut Random, sink: &mut Sink) {
    let mut turn = 0;
    each_value(random, &mut |value| {
        turn += 1;
        let form = answer::text(&Arguments::text(value));
        let arguments = Arguments {
            choice: (turn % 2) as u8,
            ..Arguments::text(&form.written)
        };
        assert!(
            lines(&arguments).written == form.written,
            "no line end but LF"
        );
        sink(arguments);
    });
}

/// And unescaped with an empty table: each has to be the text written.
pub fn text_forms_unescaped(
    unescaped: fn(&Arguments) -> Answer,
    random: &mut Random,
    sink: &mut Sink,
) {
    each_value(random, &mut |value| {
        let form = answer::text(&Arguments::text(value));
        let arguments = Arguments::text(&form.written);
        assert!(
            unescaped(&arguments).written == value,
            "a form is read as its text"
        );
        sink(arguments);
    });
}

/// All short values of what is replaced, and random ones.
fn each_value(random: &mut Random, give: &mut dyn FnMut(&[u8])) {
    let pieces: [&[u8]; 9] = [b"<", b">", b"&", b"'", b"\"", b"\r", b"\n", b"\t", b";"];
    for length in 0..=4 {
        every_sequence(&pieces, length, &mut |value| give(&value.concat()));
    }
    for _ in 0..10_000 {
        let length = random_length(random);
        let mix = random.pick(&MIXES);
        give(&woven(random, mix, &pieces, 5, length));
    }
}
