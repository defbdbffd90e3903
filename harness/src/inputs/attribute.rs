//! Texts, tables and settings for attribute values: section 3.3.3 of XML 1.0 and of XML 1.1.

use super::entities::{referring, with_some_table, NUMBERS, REFUSED_TABLES, SOUND};
use super::rooms::{random_room, unknown_choices};
use super::sequences::every_sequence;
use super::sizes::BLOCK_ENDS;
use super::tables::few;
use super::text::{woven, Mix};
use super::woven::Subject;
use super::{big_tables, entities, external, marked, memory, sizes, tables};
use crate::arguments::{Arguments, Family, Room, Sink};
use crate::arguments::{DEEPEST, LONGEST_TEXT, MOST_OPENINGS, MOST_SPARE, ROOMS};
use crate::draft::Draft;
use crate::random::Random;
use crate::table::EMPTY;

pub struct Attribute;

const VERSIONS: [u8; 3] = [0, 1, 2];

/// What every call that walks over attribute values is tried on.
pub const FAMILIES: &[Family] = &[
    sizes::limits,
    unknown_choices,
    every_setting,
    external::every_order,
    external::every_small_table,
    marked::every_small_table,
    marked::every_text,
    tables::limits,
    entities::text_before_table,
    entities::lookups,
    big_tables::looked_up_often,
    entities::similar_names,
    entities::first_binds,
    entities::repeated,
    memory::kept,
    nested,
    wide,
    most_openings,
];

/// Depths and limits that the few tables meet and do not meet.
const SETTINGS: [(u64, u64); 6] = [
    (DEEPEST, MOST_OPENINGS),
    (1, MOST_OPENINGS),
    (0, 0),
    (2, 1),
    (3, 3),
    (1, 0),
];

impl Subject for Attribute {
    /// What stops the walk, characters that share bytes with line ends, references and parts of them.
    const PIECES: &'static [&'static [u8]] = &[
        b"&",
        b";",
        b"#",
        b"a",
        b"\t",
        b"\r",
        b"\n",
        "\u{85}".as_bytes(),
        "\u{2028}".as_bytes(),
        "½".as_bytes(),
        "€".as_bytes(),
        b"&a;",
        b"&e;",
        b"&b;",
        b"&lt;",
        b"&amp;",
        b"&#10;",
    ];
    const BROKEN: &'static [&'static [u8]] = &[b"\xC2", b"\xE2\x80"];
    const MOST_PIECES: usize = 3;
    const BYTES: &'static [u8] = b"&;#a\t\r\n\xC2\x85\xE2\x80\xA8";

    fn seams(random: &mut Random, sink: &mut Sink) {
        every_row(sink);
        external::seams(sink);
        marked::seams(sink);
        refused_seams(sink);
        for room in ROOMS {
            for scratch in ROOMS {
                sink(Arguments {
                    room,
                    scratch,
                    table: few()[1].table(),
                    ..Arguments::text(b"a<&a;")
                });
            }
        }
        for at in BLOCK_ENDS {
            for piece in ["\r\n", "\u{2028}", "&a;"] {
                let mut text = vec![b'a'; 80];
                text.splice(at..at, piece.bytes());
                Self::one(random, Arguments::text(&text), sink);
            }
        }
        for gap in [1, 3, 10] {
            let text = referring(random, Mix::Mixed, SOUND, gap, 60);
            sink(Arguments {
                choice: 2,
                table: few()[1].table(),
                ..Arguments::text(&text)
            });
        }
    }

    /// Each of the few tables with each of the settings, the rooms in turn.
    fn each(arguments: Arguments, sink: &mut Sink) {
        let mut turn = 0;
        for choice in [0, 2] {
            for draft in few() {
                for (depth, limit) in SETTINGS {
                    sink(Arguments {
                        choice,
                        depth,
                        limit,
                        table: draft.table(),
                        room: ROOMS[turn % ROOMS.len()],
                        scratch: scratch(turn),
                        ..arguments
                    });
                    turn += 1;
                }
            }
        }
    }

    fn one(random: &mut Random, arguments: Arguments, sink: &mut Sink) {
        let arguments = Arguments {
            choice: random.pick(&VERSIONS),
            depth: match random.below(8) {
                0 => 0,
                1 | 2 => 1,
                3 => 2,
                4 => random.below(DEEPEST as usize + 1) as u64,
                _ => DEEPEST,
            },
            limit: match random.below(8) {
                0 => random.below(4) as u64,
                1 => random.below(40) as u64,
                2 => 1000,
                _ => MOST_OPENINGS,
            },
            room: random_room(random),
            scratch: scratch(random.below(16)),
            ..arguments
        };
        with_some_table(random, arguments, sink);
    }

    fn text(random: &mut Random, mix: Mix, gap: usize, length: usize) -> Vec<u8> {
        match random.below(6) {
            0 | 1 => woven(random, mix, Self::PIECES, gap, length),
            2 => referring(random, mix, &[SOUND, NUMBERS].concat(), gap, length),
            3 => referring(random, mix, SOUND, gap, length),
            _ => referring(random, mix, &[SOUND, BLANKS].concat(), gap, length),
        }
    }
}

const BLANKS: &[&[u8]] = &[
    b"\t",
    b"\r\n",
    b"\n",
    b" ",
    "\u{85}".as_bytes(),
    "\r\u{85}".as_bytes(),
    "\u{2028}".as_bytes(),
    "½".as_bytes(),
    "€".as_bytes(),
];

/// Mostly room enough: what comes after 18 is not seen in less.
fn scratch(turn: usize) -> Room {
    match turn % 8 {
        0 => Room::Short,
        1 => Room::Null,
        2 | 3 => Room::Exact,
        _ => Room::Spare(turn % MOST_SPARE),
    }
}

/// Text, versions, depth, limit.
type Row = (&'static str, &'static [u8], u64, u64);
type Definitions = &'static [(&'static str, &'static str)];

const BOTH: &[u8] = &[0, 2];
const DEEP: u64 = DEEPEST;
const MANY: u64 = MOST_OPENINGS;

/// Document 01's rows, those of section 3.3.3 of XML 1.0, and what tells the order of the checks.
const SEAMS: [(Definitions, &[Row]); 8] = [
    (
        &[],
        &[
            ("", BOTH, 0, 0),
            ("a b", BOTH, 0, 0),
            ("a\t", BOTH, 0, 0),
            ("a\t", &[0, 1, 2], 1, 0),
            ("&a&b;", BOTH, 1, 0),
            ("&;", BOTH, 1, 0),
            ("&", BOTH, 1, 0),
            ("&", BOTH, 0, 0),
            ("a&lt", BOTH, 1, 0),
            ("&lt;&gt;&amp;&apos;&quot;", BOTH, 1, 0),
            ("&amp;lt;", BOTH, 1, 0),
            ("&a\tb;", BOTH, 1, 0),
            ("&#x41;&#65;", BOTH, 1, 0),
            ("&#+1;", BOTH, 1, 0),
            ("&#X41;", BOTH, 1, 0),
            ("&#xD800;", BOTH, 1, 0),
            ("&#x110000;", BOTH, 1, 0),
            ("&#0;", BOTH, 1, 0),
            ("&#;", BOTH, 1, 0),
            ("&#1;&#9;&#10;&#13;&#32;", BOTH, 1, 0),
            ("\r\r\n\n", BOTH, 1, 0),
            ("\r\u{85}", BOTH, 1, 0),
            ("\u{85}\u{2028}", BOTH, 1, 0),
            ("\r\u{2028}\r½", BOTH, 1, 0),
            ("a\u{85}b", BOTH, 0, 0),
            ("½", BOTH, 0, 0),
            ("€", BOTH, 0, 0),
            ("½€…\u{2029}", BOTH, 1, 0),
            ("a&#x85;b", BOTH, 1, 0),
            ("a&#x2028;b", BOTH, 1, 0),
            ("<>'\"é😀", BOTH, 1, 0),
        ],
    ),
    (
        &[("d", "\r"), ("a", "\n"), ("da", "\r\n")],
        &[
            ("\n\nxyz", BOTH, DEEP, MANY),
            ("&d;&d;A&a;&#x20;&a;B&da;", BOTH, DEEP, MANY),
            ("&#xd;&#xd;A&#xa;&#xa;B&#xd;&#xa;", BOTH, DEEP, MANY),
            ("&d;&d;A&a;&#x20;&a;B&da;", BOTH, 2, 5),
            ("&d;&d;A&a;&#x20;&a;B&da;", BOTH, 2, 4),
            ("&d;&d;A&a;&#x20;&a;B&da;", BOTH, 1, 5),
            ("&d;\n", BOTH, 2, 1),
            ("\r&a;", BOTH, 2, 1),
        ],
    ),
    (
        &[("d", "&#xD;"), ("a", "&#xA;"), ("da", "&#xD;&#xA;")],
        &[
            ("&d;&d;A&a;&#x20;&a;B&da;", BOTH, DEEP, MANY),
            ("&d;&d;A&a;&#x20;&a;B&da;", BOTH, 1, MANY),
        ],
    ),
    (
        &[("e", "½")],
        &[
            ("&e;", BOTH, 1, 1),
            ("&e;", BOTH, 2, 1),
            ("&e;", BOTH, 1, 0),
            ("x&e;&e;", BOTH, 2, 1),
            ("&e", BOTH, 2, 0),
        ],
    ),
    (
        &[("e", "&e;")],
        &[
            ("&e;", BOTH, 3, 3),
            ("&e;", BOTH, 3, 2),
            ("&e;", BOTH, 0, 0),
            ("ab&e;", BOTH, 1, 0),
            ("&e;", BOTH, DEEP, MANY),
        ],
    ),
    (
        &[("amp", "X"), ("lt", "&#60;\t"), ("lt", "never")],
        &[
            ("&amp;", BOTH, 1, 0),
            ("&amp;&lt;&gt;", BOTH, 2, 1),
            ("&amp;&lt;&gt;", BOTH, 2, 0),
            ("&amp;&lt;&gt;", BOTH, 1, 1),
        ],
    ),
    (
        &[
            ("a", "1&b;2&b;3"),
            ("b", "&c;"),
            ("c", ""),
            ("no", "xx&none;"),
            ("cut", "x&y"),
            ("zero", "é&#0;"),
            ("big", "&#x110000;"),
            ("a&b", "both"),
        ],
        &[
            ("&a;", BOTH, 3, 5),
            ("&a;", BOTH, 3, 4),
            ("&a;", BOTH, 3, 3),
            ("&a;", BOTH, 2, 5),
            ("&a;&a;", BOTH, DEEP, MANY),
            ("yyy&no;", BOTH, 2, 1),
            ("yyy&no;", BOTH, 1, 1),
            ("&cut;", BOTH, 2, 1),
            ("&zero;", BOTH, 2, 1),
            ("&big;", BOTH, 2, 1),
            ("&a&b;", BOTH, 1, 1),
            ("&none;&a;", BOTH, 0, 0),
            ("&c;&none;", BOTH, 1, 0),
        ],
    ),
    (
        &[("é", "<\"'>&#38;"), ("e", "\u{85}\u{2028}\r\u{85}")],
        &[
            ("&é;", BOTH, 2, 1),
            ("&e;", BOTH, 2, 1),
            ("&e;&#133;&#8232;", BOTH, 2, 1),
        ],
    ),
];

fn every_row(sink: &mut Sink) {
    for (definitions, rows) in SEAMS {
        let draft = Draft::of(definitions);
        for &(text, versions, depth, limit) in rows {
            for &choice in versions {
                sink(Arguments {
                    choice,
                    depth,
                    limit,
                    table: draft.table(),
                    ..Arguments::text(text.as_bytes())
                });
            }
        }
    }
}

/// Refusals 2 to 9, each before the next.
fn refused_seams(sink: &mut Sink) {
    let mut arguments = Arguments {
        depth: DEEPEST + 1,
        limit: MOST_OPENINGS + 1,
        choice: 3,
        table: REFUSED_TABLES[0],
        ..Arguments::text(b"&;\xC3")
    };
    sink(arguments);
    arguments.depth = DEEPEST;
    sink(arguments);
    arguments.limit = MOST_OPENINGS;
    sink(arguments);
    arguments.choice = 2;
    sink(arguments);
    arguments.text = b"&;";
    for table in REFUSED_TABLES.into_iter().chain([EMPTY]) {
        sink(Arguments { table, ..arguments });
    }
}

/// Settings at their limits and far above them, with whatever else is refused.
pub fn every_setting(_: &mut Random, sink: &mut Sink) {
    const HIGH: u64 = 1 << 32;
    let depths = [
        0,
        1,
        2,
        127,
        DEEPEST,
        DEEPEST + 1,
        255,
        256,
        HIGH,
        HIGH + 1,
        u64::MAX,
    ];
    let limits = [0, 1, MANY - 1, MANY, MANY + 1, HIGH, HIGH + 1, u64::MAX];
    for depth in depths {
        for limit in limits {
            for choice in [0, 1, 2, 3, 255] {
                for text in [b"a" as &[u8], b"\t", b"&lt;", b"\xC3"] {
                    for table in [EMPTY, REFUSED_TABLES[3]] {
                        sink(Arguments {
                            depth,
                            limit,
                            choice,
                            table,
                            ..Arguments::text(text)
                        });
                    }
                }
            }
        }
    }
    sink(Arguments {
        depth: DEEPEST + 1,
        ..Arguments::text(&vec![b'a'; LONGEST_TEXT + 1])
    });
}

/// Every replacement text of up to 3 pieces, two of them one in the other, past line ends or not.
pub fn every_replacement(_: &mut Random, sink: &mut Sink) {
    for length in 0..=3 {
        every_sequence(Attribute::PIECES, length, &mut |pieces| {
            let mut draft = Draft::default();
            draft.define(b"a", b"1&b;2");
            draft.define(b"b", &pieces.concat());
            let draft = draft.ended();
            for draft in [draft.clone(), draft.marked()] {
                for choice in [0, 2] {
                    for depth in [2, 3, 4] {
                        sink(Arguments {
                            choice,
                            depth,
                            limit: 4,
                            table: draft.table(),
                            room: Room::Spare(9),
                            ..Arguments::text(b"x&b;y&a;z")
                        });
                    }
                }
            }
        });
    }
}

/// Chains of texts, one in the other, at the depth and the limit that they need, less and more.
pub fn nested(random: &mut Random, sink: &mut Sink) {
    for length in [1, 2, 3, 64, 126, 127, 128, 129, 140] {
        for last in [
            "x", "", "\t", "½", "\r\n", "&lt;", "&amp;", "&", "&none;", "&#0;",
        ] {
            let draft = Draft::chain(length, last);
            let drafts = [draft.clone(), draft.marked()];
            for depth in [length - 1, length, length + 1, DEEPEST as usize] {
                for limit in [length - 1, length, length + 1] {
                    for choice in [0, 2] {
                        sink(Arguments {
                            choice,
                            depth: depth as u64,
                            limit: limit as u64,
                            table: random.pick(&[&drafts[0], &drafts[1]]).table(),
                            ..Arguments::text(b"ab&n0;c")
                        });
                    }
                }
            }
        }
    }
}

/// Tables that grow by a factor at each level: the limit ends the work, met exactly and not.
pub fn wide(_: &mut Random, sink: &mut Sink) {
    for (factor, levels) in [(2, 4), (2, 10), (3, 5), (10, 3), (100, 2)] {
        let draft = tree(factor, levels);
        // 1 + factor + factor^2 ..
        let openings = (factor.pow(levels + 1) - 1) / (factor - 1);
        for limit in [openings - 1, openings, openings + 1, openings / 2] {
            for depth in [levels, levels + 1, levels + 2] {
                sink(Arguments {
                    depth: u64::from(depth),
                    limit: u64::from(limit),
                    table: draft.table(),
                    ..Arguments::text(b"&n0;")
                });
            }
        }
    }
    // More than a million openings, of 2^40.
    sink(Arguments {
        table: tree(2, 40).table(),
        ..Arguments::text(b"&n0;")
    });
}

fn tree(factor: u32, levels: u32) -> Draft {
    let mut draft = Draft::default();
    for level in 0..levels {
        let text = format!("x&n{};", level + 1).repeat(factor as usize);
        draft.define(format!("n{level}").as_bytes(), text.as_bytes());
    }
    draft.define(format!("n{levels}").as_bytes(), b"y");
    draft.ended()
}

/// A million openings in the text itself, and one more.
pub fn most_openings(_: &mut Random, sink: &mut Sink) {
    let draft = Draft::of(&[("a", ""), ("b", "\t&lt;")]);
    let text = "&a;".repeat(MANY as usize + 1);
    for length in [text.len() - 3, text.len()] {
        for limit in [MANY - 1, MANY] {
            sink(Arguments {
                limit,
                table: draft.table(),
                ..Arguments::text(&text.as_bytes()[..length])
            });
        }
    }
    sink(Arguments {
        table: draft.table(),
        ..Arguments::text("&b;".repeat(300_000).as_bytes())
    });
}
