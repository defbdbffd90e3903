//! Texts and tables for unescaping.

use super::answer::unescape;
use crate::arguments::{Arguments, Room, Sink};
use crate::calls::escape::answer::escape;
use crate::draft::Draft;
use crate::inputs::entities::{referring, with_some_table, NUMBERS, REFUSED_TABLES, SOUND};
use crate::inputs::rooms::{each_room, random_room, some_room};
use crate::inputs::sequences::every_sequence;
use crate::inputs::sizes::{random_length, BLOCK_ENDS};
use crate::inputs::tables::few;
use crate::inputs::text::{woven, Mix, MIXES};
use crate::inputs::woven::Subject;
use crate::inputs::{external, marked};
use crate::random::Random;
use crate::table::LONGEST_REPLACEMENT;

pub struct Unescape;

/// Document 01's rows, and references in every state.
const SEAMS: [&str; 42] = [
    "",
    "a",
    "a;b",
    "&a&b;",
    "&;",
    "&",
    "a&",
    "&a",
    "&lt",
    "&lt;&",
    "&&lt;",
    "&lt;&gt;&amp;&apos;&quot;",
    "&amp;",
    "&amp;lt;",
    "&LT;",
    "& lt;",
    "&lt ;",
    "&l t;",
    "&a;",
    "&a;&a;",
    "&A;",
    "&e;",
    "&b;",
    "&dé;",
    "&d\u{e8};",
    "é&a;€&e;😀",
    "&aa;",
    "&#x41;&#65;",
    "&#+1;",
    "&#x-1;",
    "&#X41;",
    "&#xD800;",
    "&#x110000;",
    "&#4294967295;",
    "&#4294967296;",
    "&#0;",
    "&#x0;",
    "&#;",
    "&#x;",
    "&#65",
    "&#1;&#13;&#10;&#133;&#x1F600;",
    "&unknown;&#0;&",
];

impl Subject for Unescape {
    /// References whole and in parts, and characters of 1 to 4 bytes.
    const PIECES: &'static [&'static [u8]] = &[
        b"&",
        b";",
        b"#",
        b"a",
        b"x",
        b"1",
        b"&a;",
        b"&e;",
        "&dé;".as_bytes(),
        b"&lt;",
        b"&amp;",
        b"&#65;",
        b"&#xD800;",
        "é".as_bytes(),
        "😀".as_bytes(),
    ];
    const BROKEN: &'static [&'static [u8]] = &[b"\xC3", b"\xED\xA0\x80"];
    const MOST_PIECES: usize = 4;
    const BYTES: &'static [u8] = b"&;#ax1lt\xC3\xA9";

    fn seams(random: &mut Random, sink: &mut Sink) {
        for text in SEAMS {
            for draft in few() {
                sink(Arguments {
                    table: draft.table(),
                    ..Arguments::text(text.as_bytes())
                });
            }
        }
        external::seams(sink);
        marked::seams(sink);
        for text in ["", "&lt;", "a&e;b&a;", "&#x20AC;"] {
            each_room(&[0], with_plain_table(text.as_bytes()), sink);
        }
        for broken in Self::BROKEN {
            sink(Arguments::text(broken));
            sink(Arguments::text(&[b"&;", *broken].concat()));
        }
        for table in REFUSED_TABLES {
            for text in [b"&;" as &[u8], b"\xC3"] {
                sink(Arguments {
                    table,
                    ..Arguments::text(text)
                });
            }
        }
        for at in BLOCK_ENDS {
            let mut text = vec![b'a'; 80];
            text.splice(at..at, *b"&a;");
            some_room(random, &[0], with_plain_table(&text), sink);
        }
        for gap in [1, 3, 10] {
            let text = referring(random, Mix::Mixed, SOUND, gap, 100);
            some_room(random, &[0], with_plain_table(&text), sink);
        }
    }

    /// Each of the few tables, each room.
    fn each(arguments: Arguments, sink: &mut Sink) {
        for draft in few() {
            let table = draft.table();
            each_room(&[0], Arguments { table, ..arguments }, sink);
        }
    }

    fn one(random: &mut Random, arguments: Arguments, sink: &mut Sink) {
        let room = random_room(random);
        with_some_table(random, Arguments { room, ..arguments }, sink);
    }

    fn text(random: &mut Random, mix: Mix, gap: usize, length: usize) -> Vec<u8> {
        match random.below(6) {
            0 | 1 => woven(random, mix, Self::PIECES, gap, length),
            2 => referring(random, mix, &[SOUND, NUMBERS].concat(), gap, length),
            _ => referring(random, mix, SOUND, gap, length),
        }
    }
}

/// With the table that knows all of SOUND.
fn with_plain_table(text: &[u8]) -> Arguments<'_> {
    Arguments {
        table: few()[1].table(),
        ..Arguments::text(text)
    }
}

/// Results longer than any output, over 2^32 bytes too: 19 says how long.
pub fn longest_results(_: &mut Random, sink: &mut Sink) {
    let replacement = "r".repeat(LONGEST_REPLACEMENT);
    let draft = Draft::of(&[("a", &replacement), ("e", "")]);
    // The last is 65,534 bytes over 2^32.
    for count in [1, 2, 16, 65_538] {
        let text = "&a;&e;".repeat(count);
        for room in [Room::Exact, Room::Null, Room::Spare(9)] {
            sink(Arguments {
                table: draft.table(),
                room,
                ..Arguments::text(text.as_bytes())
            });
        }
    }
}

/// Demand 2: what any level writes comes back, with the empty table.
pub fn escaped_texts(random: &mut Random, sink: &mut Sink) {
    let mut give = |level: u8, text: &[u8]| {
        let escaped = escape(&Arguments {
            choice: level,
            ..Arguments::text(text)
        });
        let arguments = Arguments::text(&escaped.written);
        assert_eq!(unescape(&arguments).written, text);
        sink(arguments);
    };
    let pieces: [&[u8]; 9] = [b"<", b">", b"&", b"'", b"\"", b"\r", b"\n", b"\t", b";"];
    for level in 0..4 {
        for length in 0..=4 {
            every_sequence(&pieces, length, &mut |text| give(level, &text.concat()));
        }
        for _ in 0..10_000 {
            let length = random_length(random);
            let mix = random.pick(&MIXES);
            give(level, &woven(random, mix, &pieces, 5, length));
        }
    }
}
