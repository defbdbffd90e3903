//! External entities (K9) among definitions, in small tables and short texts.

use super::rooms::random_room;
use super::sequences::every_sequence;
use crate::arguments::{Arguments, Sink, DEEPEST, MOST_OPENINGS};
use crate::draft::{Draft, Entity};
use crate::random::Random;

/// What tells the order of the checks at a reference, and which command binds.
const SEAMS: [(&[Entity], &[&str]); 4] = [
    (
        &[("e", None), ("e", Some("x")), ("f", Some("y")), ("f", None)],
        &[
            "", "e", "&e;", "&f;", "&f;&e;", "é&e;", "\t&e;", "&e", "&e&e;", "&#0;&e;", "&e;&#0;",
        ],
    ),
    (
        &[("lt", None), ("amp", None)],
        &["&lt;", "&amp;", "&gt;&lt;", "&amp;&lt;", "&#60;"],
    ),
    (
        &[
            ("a", Some("1&b;")),
            ("b", Some("½&e;")),
            ("c", Some("")),
            ("e", None),
        ],
        &["&a;", "x&b;", "&c;", "&c;&c;&e;", "&c;&a;", "&b", "&g;"],
    ),
    (&[("é&é", None), ("#65", None)], &["&é&é;", "&#65;", "&é;"]),
];

const SETTINGS: [(u64, u64); 6] = [
    (DEEPEST, MOST_OPENINGS),
    (2, 1),
    (1, 0),
    (1, MOST_OPENINGS),
    (0, 0),
    (2, 2),
];

pub fn seams(sink: &mut Sink) {
    for (entities, texts) in SEAMS {
        let draft = Draft::of_entities(entities.iter().copied());
        for (turn, text) in texts.iter().enumerate() {
            for (depth, limit) in &SETTINGS[..3] {
                sink(Arguments {
                    choice: [0, 2][turn % 2],
                    depth: *depth,
                    limit: *limit,
                    table: draft.table(),
                    ..Arguments::text(text.as_bytes())
                });
            }
        }
    }
}

/// Every table of up to two of these, with every short text.
const ENTITIES: [Entity; 7] = [
    ("e", None),
    ("f", None),
    ("e", Some("")),
    ("e", Some("x")),
    ("e", Some("&f;")),
    ("f", Some("&e;")),
    ("f", Some("\t")),
];

/// Every text of up to five of these bytes, and of up to four of the pieces.
pub fn every_small_table(random: &mut Random, sink: &mut Sink) {
    const PIECES: [&[u8]; 6] = [b"&e;", b"&f;", b"&lt;", b"&amp;", b"x", b"\t"];
    let bytes: Vec<&[u8]> = b"&;ef#\t".chunks(1).collect();
    for count in 0..=2 {
        every_sequence(&ENTITIES, count, &mut |entities| {
            let draft = Draft::of_entities(entities.iter().copied());
            let mut give = |text: &[u8]| with_some_settings(random, &draft, text, sink);
            for (alphabet, most) in [(&bytes[..], 5), (&PIECES, 4)] {
                for length in 0..=most {
                    every_sequence(alphabet, length, &mut |text| give(&text.concat()));
                }
            }
        });
    }
}

/// Every table of three, with references to both names.
pub fn every_order(random: &mut Random, sink: &mut Sink) {
    every_sequence(&ENTITIES, 3, &mut |entities| {
        let draft = Draft::of_entities(entities.iter().copied());
        for text in ["&e;", "&f;", "x&e;&f;", "\t&f;&e;", "&lt;&e;", "&f;&f;"] {
            for _ in 0..SETTINGS.len() {
                with_some_settings(random, &draft, text.as_bytes(), sink);
            }
        }
    });
}

fn with_some_settings(random: &mut Random, draft: &Draft, text: &[u8], sink: &mut Sink) {
    let (depth, limit) = random.pick(&SETTINGS);
    sink(Arguments {
        choice: random.pick(&[0, 1, 2]),
        depth,
        limit,
        table: draft.table(),
        room: random_room(random),
        ..Arguments::text(text)
    });
}
