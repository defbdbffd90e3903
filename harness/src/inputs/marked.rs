//! Marked lists (K4) beside the same lists without the mark, in small tables and short texts.

use super::rooms::random_room;
use super::sequences::every_sequence;
use crate::arguments::{Arguments, Sink, DEEPEST, MOST_OPENINGS};
use crate::draft::{Draft, Entity};
use crate::random::Random;

/// What the mark changes, and what it does not.
const SEAMS: [(&[Entity], &[&str]); 5] = [
    (
        &[("d", Some("\r")), ("a", Some("\n")), ("da", Some("\r\n"))],
        &[
            "&d;&d;A&a;&#x20;&a;B&da;",
            "\n\nxyz",
            "&#xd;&#xd;A&#xa;&#xa;B&#xd;&#xa;",
            "\r\n&da;\r\n",
            "\r&a;",
            "&d;\n",
        ],
    ),
    (
        &[
            ("h", Some("½")),
            ("n", Some("\u{85}")),
            ("l", Some("\u{2028}")),
            ("c", Some("\r\u{85}\r\u{2028}")),
            ("t", Some("a\tb")),
        ],
        &[
            "&h;",
            "&n;",
            "&l;",
            "&c;",
            "&t;",
            "½\u{85}\u{2028}&h;",
            "€…&n;&l;&h;",
        ],
    ),
    (
        &[
            ("a", Some("&b;\r\n")),
            ("b", Some("\r&c;\n")),
            ("c", Some("½\r\n")),
            ("a", Some("never")),
        ],
        &["&a;", "&b;\n", "x&c;&c;y"],
    ),
    (
        &[("lt", Some("\r\n<")), ("amp", Some("\r\n")), ("e", None)],
        &["&lt;&amp;", "&gt;", "\r\n&e;", "&none;"],
    ),
    (
        &[],
        &["", "a\r\nb", "½", "\u{85}\u{2028}", "&lt;", "&e;", "&"],
    ),
];

const SETTINGS: [(u64, u64); 5] = [
    (DEEPEST, MOST_OPENINGS),
    (1, MOST_OPENINGS),
    (2, 2),
    (0, 0),
    (3, 1),
];

pub fn seams(sink: &mut Sink) {
    for (entities, texts) in SEAMS {
        for is_marked in [true, false] {
            let draft = Draft::of_entities(entities.iter().copied()).marked_if(is_marked);
            for text in texts {
                for choice in [0, 2] {
                    for (depth, limit) in &SETTINGS[..2] {
                        sink(Arguments {
                            choice,
                            depth: *depth,
                            limit: *limit,
                            table: draft.table(),
                            ..Arguments::text(text.as_bytes())
                        });
                    }
                }
            }
        }
    }
}

/// Every table of up to two of these, marked and not, with every short text.
const ENTITIES: [Entity; 9] = [
    ("e", Some("\r\n")),
    ("e", Some("½")),
    ("e", Some("\r&f;\n")),
    ("e", Some("x\t")),
    ("f", Some("\r\u{85}")),
    ("f", Some("\u{2028}&e;")),
    ("f", Some("\n")),
    ("f", Some("")),
    ("f", None),
];

/// Every text of up to four of these pieces.
pub fn every_small_table(random: &mut Random, sink: &mut Sink) {
    const PIECES: [&str; 8] = ["&e;", "&f;", "\r", "\n", "\u{85}", "½", "&lt;", "x"];
    let pieces = PIECES.map(str::as_bytes);
    for count in 0..=2 {
        every_sequence(&ENTITIES, count, &mut |entities| {
            for is_marked in [true, false] {
                let draft = Draft::of_entities(entities.iter().copied()).marked_if(is_marked);
                for length in 0..=4 {
                    every_sequence(&pieces, length, &mut |text| {
                        with_some_settings(random, &draft, &text.concat(), sink);
                    });
                }
            }
        });
    }
}

/// Every replacement text of up to five of these pieces, at both ends of the depth that it needs, by either version.
pub fn every_text(random: &mut Random, sink: &mut Sink) {
    const PIECES: [&str; 7] = ["\r", "\n", "\t", "\u{85}", "\u{2028}", "½", "x"];
    let pieces = PIECES.map(str::as_bytes);
    for length in 0..=5 {
        every_sequence(&pieces, length, &mut |text| {
            let mut draft = Draft::default();
            draft.define(b"e", &text.concat());
            draft.define(b"f", b"&e;");
            let draft = draft.ended().marked();
            for (text, depth) in [("&e;", 1), ("\r&e;\n", 2), ("&f;", 2), ("&f;", 3)] {
                sink(Arguments {
                    choice: random.pick(&[0, 2]),
                    depth,
                    table: draft.table(),
                    room: random_room(random),
                    ..Arguments::text(text.as_bytes())
                });
            }
        });
    }
}

fn with_some_settings(random: &mut Random, draft: &Draft, text: &[u8], sink: &mut Sink) {
    let (depth, limit) = random.pick(&SETTINGS);
    sink(Arguments {
        choice: random.pick(&[0, 1, 2]),
        depth,
        limit,
        table: draft.table(),
        room: random_room(random),
        ..Arguments::text(text)
    });
}
