//! Values whose texts nest: in chains, in circles, and in each other in every way that a few texts can.

use crate::arguments::{Arguments, Sink, DEEPEST, MOST_OPENINGS};
use crate::draft::Draft;
use crate::inputs::attribute::Attribute;
use crate::inputs::sequences::every_sequence;
use crate::inputs::woven;
use crate::random::Random;

/// What may stand in a text beside references.
const PIECES: [&str; 12] = [
    "", "x", "yz", "½", "€", "\t", "\r\n", "\u{85}", "&lt;", "&amp;", "&#65;", "&gt;",
];

const LAST: [&str; 10] = [
    "x", "", "\t", "½", "&lt;", "&amp;", "&", "&u;", "&#0;", "&n0;",
];

/// Those of attribute values; chains are the documents' rows.
pub fn seams(random: &mut Random, sink: &mut Sink) {
    woven::seams::<Attribute>(random, sink);
    for limit in [0, 1, 2, 3] {
        for text in ["&e;", "&f;&e;", "&lt;&g;", "&g;&f;", "a\t&h;"] {
            sink(Arguments {
                limit,
                table: Draft::of(&[("e", "&f;"), ("f", "\t"), ("g", "&e;&f;"), ("h", "&h;")])
                    .table(),
                ..Arguments::text(text.as_bytes())
            });
        }
    }
}

/// Chains of every length up to one that no depth reads, marked or not.
pub fn chains(random: &mut Random, sink: &mut Sink) {
    for length in 1..=DEEPEST as usize + 3 {
        for last in LAST {
            let draft = Draft::chain(length, last);
            for draft in [draft.clone(), draft.marked()] {
                let limit = match random.below(4) {
                    0 => length - 1,
                    1 => length,
                    _ => MOST_OPENINGS as usize,
                };
                sink(Arguments {
                    choice: random.pick(&[0, 1, 2]),
                    limit: limit as u64,
                    table: draft.table(),
                    ..Arguments::text(b"ab&n0;c")
                });
            }
        }
    }
}

/// References to places of one chain, in any order: the least depth is that of the deepest, wherever it stands.
pub fn places_of_chains(random: &mut Random, sink: &mut Sink) {
    for _ in 0..4_000 {
        let length = 1 + random.below(140);
        let draft = Draft::chain(length, random.pick(&LAST));
        let count = 1 + random.below(4);
        let references = (0..count).map(|_| {
            let near_the_end = length.saturating_sub(DEEPEST as usize + 1);
            let place = near_the_end + random.below(length - near_the_end);
            format!("{}&n{place};", random.pick(&["", "\t", "&lt;"]))
        });
        let text: String = references.collect();
        sink(Arguments {
            choice: random.pick(&[0, 2]),
            table: draft.table(),
            ..Arguments::text(text.as_bytes())
        });
    }
}

/// Circles of one to five texts, at every limit up to one that 128 levels don't use up.
pub fn circles(_: &mut Random, sink: &mut Sink) {
    for length in 1..=5 {
        for text in ["x&n0;", "&n0;&u;", "&lt;\t&n0;"] {
            let draft = Draft::chain(length, "&n0;");
            for limit in (0..=DEEPEST + 2).chain([MOST_OPENINGS]) {
                sink(Arguments {
                    limit,
                    table: draft.table(),
                    ..Arguments::text(text.as_bytes())
                });
            }
        }
    }
}

/// Every table of four names whose texts are plain, stop or refer to each other, with every value of up to three references.
pub fn every_small_table(_: &mut Random, sink: &mut Sink) {
    const TEXTS: [&str; 7] = ["z", "\t", "½", "&b;", "&d;", "&x;", "&d;&x;"];
    let mut values = vec![];
    for length in 1..=3 {
        every_sequence(&["&a;", "&b;", "&d;", "&x;"], length, &mut |value| {
            values.push(value.concat());
        });
    }
    every_sequence(&TEXTS, 4, &mut |texts| {
        let names = ["a", "b", "d", "x"];
        let draft = Draft::of_entities(names.into_iter().zip(texts.iter().map(|&text| Some(text))));
        for value in &values {
            sink(Arguments {
                choice: 2,
                table: draft.table(),
                ..Arguments::text(value.as_bytes())
            });
        }
    });
}

/// Those of attribute values, and tables whose texts refer to later ones, now and then to earlier ones or to none.
pub fn random(random: &mut Random, sink: &mut Sink) {
    woven::random::<Attribute>(random, sink);
    for _ in 0..2_000 {
        nested(random, sink);
    }
}

fn nested(random: &mut Random, sink: &mut Sink) {
    let count = match random.below(8) {
        0 => 1,
        1 => 1 + random.below(150),
        _ => 2 + random.below(12),
    };
    let mut draft = Draft::default();
    for index in 0..count {
        let text = referring(random, index + 1, count, 3);
        match random.below(100) {
            0 => draft.declare_external(format!("n{index}").as_bytes()),
            _ => draft.define(format!("n{index}").as_bytes(), text.as_bytes()),
        }
    }
    let draft = draft.ended().marked_if(random.below(4) == 0);
    let text = referring(random, 0, count, 6);
    sink(Arguments {
        choice: random.pick(&[0, 1, 2]),
        limit: match random.below(3) {
            0 => random.below(200) as u64,
            1 => 1_000,
            _ => 4_000,
        },
        table: draft.table(),
        ..Arguments::text(text.as_bytes())
    });
}

/// Up to so many pieces, most of them references to names from this one on.
fn referring(random: &mut Random, from: usize, count: usize, most: usize) -> String {
    let mut text = String::new();
    for _ in 0..random.below(most + 1) {
        let name = match random.below(60) {
            0 => random.below(count + 1),
            _ if from < count => from + random.below(2.min(count - from)),
            _ => count,
        };
        match random.below(3) {
            0 => text += random.pick(&PIECES),
            _ if name < count => text += &format!("&n{name};"),
            _ => text += random.pick(&PIECES),
        }
    }
    text
}
