//! Characters that a version does not allow (K8): raw and by their numbers, in values and in texts of tables.

use super::number::{written, Form};
use super::rooms::random_room;
use super::sequences::every_sequence;
use super::strict_rows::ROWS;
use super::text::{woven, Mix};
use super::woven::{self, Subject};
use crate::arguments::{Arguments, Family, Room, Sink, DEEPEST, MOST_OPENINGS, ROOMS};
use crate::draft::Draft;
use crate::random::Random;
use std::sync::OnceLock;

pub struct Strict;

/// What every strict call is tried on beside the inputs of the lenient one.
pub const FAMILIES: &[Family] = &[
    every_edge_in_runs,
    every_small_table,
    woven::every_short_text::<Strict>,
    woven::every_character::<Strict>,
    woven::every_length_and_address::<Strict>,
    woven::damaged::<Strict>,
    woven::long::<Strict>,
];

/// What a lenient call is tried on, since it has to let all of this through.
pub const LENIENT: &[Family] = &[woven::seams::<Strict>, every_edge_in_runs];

/// The characters at both sides of each end of the ranges of Char and RestrictedChar, and of the bytes that lead them.
const EDGES: [char; 32] = [
    '\0',
    '\u{1}',
    '\u{8}',
    '\t',
    '\n',
    '\u{B}',
    '\u{C}',
    '\r',
    '\u{E}',
    '\u{1F}',
    ' ',
    '~',
    '\u{7F}',
    '\u{80}',
    '\u{84}',
    '\u{85}',
    '\u{86}',
    '\u{9F}',
    '\u{A0}',
    '\u{BF}',
    '\u{7FF}',
    '\u{2028}',
    '\u{D7FF}',
    '\u{E000}',
    '\u{FFBF}',
    '\u{FFFD}',
    '\u{FFFE}',
    '\u{FFFF}',
    '\u{10000}',
    '\u{1FFFE}',
    '\u{1FFFF}',
    '\u{10FFFF}',
];

const SETTINGS: [(u64, u64); 4] = [(DEEPEST, MOST_OPENINGS), (1, MOST_OPENINGS), (0, 0), (2, 2)];

/// A few tables whose texts and names have such characters, marked and not.
fn few() -> &'static [Draft] {
    static FEW: OnceLock<[Draft; 4]> = OnceLock::new();
    FEW.get_or_init(|| {
        let older = Draft::of(&[
            ("e", "\u{80}"),
            ("f", "a\u{1}&e;"),
            ("1", "\u{FFFE}"),
            ("\u{1}", "\u{85}\u{7F}"),
        ]);
        let newer = Draft::of(&[
            ("e", "x&f;"),
            ("f", "&#1;\t"),
            ("1", "\0"),
            ("never", "\u{1}\u{FFFF}"),
        ]);
        [older.clone(), older.marked(), newer, Draft::of(&[])]
    })
}

impl Subject for Strict {
    const PIECES: &'static [&'static [u8]] = &[
        b"\x01",
        b"\t",
        b"&",
        b";",
        b"#",
        b"1",
        "\u{80}".as_bytes(),
        "\u{85}".as_bytes(),
        "\u{FFFE}".as_bytes(),
        b"e",
        b"\0",
        b"\x1F",
        b"\x7F",
        b"\r",
        "\u{9F}".as_bytes(),
        "\u{2028}".as_bytes(),
        "½".as_bytes(),
        "\u{FFFF}".as_bytes(),
        "\u{FFFD}".as_bytes(),
        b"&e;",
        b"&f;",
        b"&#1;",
        b"&#xFFFE;",
        b"&#x7F;",
        b"&\x01;",
    ];
    const BROKEN: &'static [&'static [u8]] = &[b"\xC2", b"\xEF\xBF"];
    const MOST_PIECES: usize = 3;
    const BYTES: &'static [u8] = b"\x00\x01\x1F\x7F&;\t\r\xC2\x80\x85\xEF\xBF\xBE";

    /// The documents' rows, and each of the edges, raw and by its number, in a value and in a text.
    fn seams(_: &mut Random, sink: &mut Sink) {
        ROWS.iter().for_each(|row| row.give(sink));
        for character in EDGES {
            let raw = format!("a{character}");
            let number = format!("a&#{};", u32::from(character));
            for text in [&raw, &number] {
                let draft = Draft::of(&[("e", text)]);
                for choice in [0, 2] {
                    sink(Arguments {
                        choice,
                        ..Arguments::text(text.as_bytes())
                    });
                    for draft in [draft.clone(), draft.clone().marked()] {
                        sink(Arguments {
                            choice,
                            table: draft.table(),
                            ..Arguments::text(b"&e;")
                        });
                    }
                }
            }
        }
        for room in ROOMS {
            for text in [b"a\x01" as &[u8], b"&#1;", b"&#xFFFE;"] {
                sink(Arguments {
                    choice: 2,
                    room,
                    scratch: room,
                    ..Arguments::text(text)
                });
            }
        }
    }

    /// Each of the few tables under each version with a setting, in turn.
    fn each(arguments: Arguments, sink: &mut Sink) {
        for choice in [0, 2] {
            for (draft, turn) in few().iter().zip(arguments.text.len()..) {
                let (depth, limit) = SETTINGS[turn % SETTINGS.len()];
                for (depth, limit) in [(depth, limit), SETTINGS[0]] {
                    sink(Arguments {
                        choice,
                        depth,
                        limit,
                        table: draft.table(),
                        room: ROOMS[turn % ROOMS.len()],
                        ..arguments
                    });
                }
            }
        }
    }

    fn one(random: &mut Random, arguments: Arguments, sink: &mut Sink) {
        let (depth, limit) = random.pick(&SETTINGS);
        let draft = random_draft(random);
        sink(Arguments {
            choice: random.pick(&[0, 1, 2, 2]),
            depth,
            limit,
            table: draft.table(),
            room: random_room(random),
            scratch: random.pick(&[Room::Exact, Room::Spare(9), Room::Short]),
            ..arguments
        });
    }

    /// Half of them with few such characters, so that the walk comes far.
    fn text(random: &mut Random, mix: Mix, gap: usize, length: usize) -> Vec<u8> {
        const FEW: &[&[u8]] = &[b"&e;", b"\t", b"\r\n", b"&#x7F;", b"&lt;", b"\x7F", b"&f;"];
        match random.below(4) {
            0 => woven(random, mix, Self::PIECES, gap, length),
            1 => woven(random, mix, Self::PIECES, gap + length / 2, length),
            2 => woven(random, mix, FEW, gap, length),
            _ => {
                let mut text = woven(random, mix, FEW, gap, length);
                let at = length.saturating_sub(1 + random.below(9));
                if text.get(at).is_some_and(u8::is_ascii) {
                    text[at] = random.pick(b"\x01\x1F\x7F\0");
                }
                text
            }
        }
    }
}

/// One of the few, or a random one.
fn random_draft(random: &mut Random) -> Draft {
    if random.below(2) == 0 {
        return few()[random.below(few().len())].clone();
    }
    let mut draft = Draft::default();
    for _ in 0..random.below(5) {
        let name = random.pick(&["e", "f", "1", "\u{1}", "lt", "\u{FFFE}"]);
        let count = random.below(4);
        let pieces = (0..count).map(|_| random.pick(Strict::PIECES));
        let text = pieces.collect::<Vec<_>>().concat();
        match random.below(8) {
            0 => draft.declare_external(name.as_bytes()),
            _ => draft.define(name.as_bytes(), &text),
        }
    }
    let is_marked = random.below(2) == 0;
    draft.ended().marked_if(is_marked)
}

/// Each of the edges at each offset of a run, in a value and in a text, also after a blank, before one and before a reference.
pub fn every_edge_in_runs(random: &mut Random, sink: &mut Sink) {
    const RUN: usize = 70;
    for character in EDGES {
        for before in 0..RUN {
            let run = "a".repeat(before);
            let text = match random.below(4) {
                0 => format!("\t{run}{character}b"),
                1 => format!("{run}{character}\t"),
                2 => format!("{run}{character}&lt;"),
                _ => format!("{run}{character}{run}"),
            };
            let draft = Draft::of(&[("e", &text)]).marked_if(random.below(2) == 0);
            for choice in [0, 2] {
                for (given, depth) in [(&text[..], 0), (&text, 1), ("&e;", 1), ("b&e;", 2)] {
                    sink(Arguments {
                        choice,
                        depth,
                        table: draft.table(),
                        room: random_room(random),
                        ..Arguments::text(given.as_bytes())
                    });
                }
            }
        }
    }
}

/// Every character in a text of the table, raw or by its number, at some place of a value.
pub fn every_character_in_texts(random: &mut Random, sink: &mut Sink) {
    for character in '\0'..=char::MAX {
        let text = match random.below(4) {
            0 => {
                let form = random.pick(&[Form::Decimal, Form::LowerHexadecimal]);
                let digits = written(u128::from(u32::from(character)), form, random.below(3));
                [b"&#", &digits[..], b";"].concat()
            }
            _ => format!("{}{character}z", "a".repeat(random.below(40))).into_bytes(),
        };
        let mut draft = Draft::default();
        draft.define(b"e", &text);
        let draft = draft.ended().marked_if(random.below(2) == 0);
        sink(Arguments {
            choice: random.pick(&[0, 1, 2, 2]),
            depth: random.pick(&[1, 2]),
            table: draft.table(),
            ..Arguments::text(random.pick(&[b"&e;" as &[u8], b"x&e;y", b"&e;&e;"]))
        });
    }
}

/// Every text of up to five of these pieces, and every text of up to three that a value refers to, by tables of one and two names.
pub fn every_small_table(random: &mut Random, sink: &mut Sink) {
    const PIECES: [&str; 10] = [
        "\u{1}", "\t", "&", ";", "#", "1", "\u{80}", "\u{85}", "\u{FFFE}", "e",
    ];
    let pieces = PIECES.map(str::as_bytes);
    let mut give = |draft: &Draft, text: &[u8], random: &mut Random| {
        let (depth, limit) = random.pick(&SETTINGS);
        sink(Arguments {
            choice: random.pick(&[0, 1, 2, 2]),
            depth,
            limit,
            table: draft.table(),
            room: random_room(random),
            ..Arguments::text(text)
        });
    };
    for length in 0..=5 {
        every_sequence(&pieces, length, &mut |sequence| {
            let text = sequence.concat();
            for draft in &few()[..3] {
                give(draft, &text, random);
            }
        });
    }
    for length in 0..=3 {
        every_sequence(&pieces, length, &mut |sequence| {
            let mut draft = Draft::default();
            draft.define(b"e", &sequence.concat());
            draft.define(b"f", b"b&e;");
            let draft = draft.ended();
            for draft in [draft.clone(), draft.marked()] {
                for text in ["&e;", "&f;", "\t&e;\u{80}", "&e;\u{1}"] {
                    for _ in 0..SETTINGS.len() {
                        give(&draft, text.as_bytes(), random);
                    }
                }
            }
        });
    }
}
