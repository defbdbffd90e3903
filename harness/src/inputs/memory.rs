//! Tables and texts for what a walk over attribute values keeps of the texts that it opened.

use super::rooms::random_room;
use crate::arguments::{Arguments, Sink, DEEPEST, MOST_OPENINGS};
use crate::draft::Draft;
use crate::random::Random;

/// Five names of one slot of the memory (`slot_of` of crates/memory), and two and two of others.
const NAMES: [&str; 9] = ["a", "q", "hb", "hd", "mabcdefgh", "b", "r", "abc", "qbc"];

const OTHERS: [&str; 10] = [
    "x", "yz", "", "½", "€", "\t", "\r\n", "\u{85}", "&lt;", "&#65;",
];

/// What a text takes: openings, and a depth that is enough.
#[derive(Clone, Copy)]
struct Needs {
    openings: u64,
    depth: u64,
}

/// References to the same few names in the text and in each other's texts, so at several depths,
/// with depths and limits that are just met or just not.
pub fn kept(random: &mut Random, sink: &mut Sink) {
    const ROUNDS: usize = 60_000;
    for _ in 0..ROUNDS {
        let mut names = NAMES;
        for index in (1..names.len()).rev() {
            names.swap(index, random.below(index + 1));
        }
        let mut draft = Draft::default();
        // In few tables, and of few names: a text that refers to it is never kept.
        let external = random.below(4 * NAMES.len());
        let mut defined: Vec<(&str, Needs)> = vec![];
        for (index, name) in names.into_iter().enumerate() {
            let (text, needs) = referring(random, &defined, 3);
            match index == external {
                true => draft.declare_external(name.as_bytes()),
                false => draft.define(name.as_bytes(), text.as_bytes()),
            }
            defined.push((name, needs));
        }
        let draft = draft.ended().marked_if(random.below(4) == 0);
        let (text, Needs { openings, depth }) = referring(random, &defined, 12);
        sink(Arguments {
            choice: random.pick(&[0, 1, 2]),
            depth: match random.below(4) {
                0 => DEEPEST,
                1 => random.below(depth as usize + 1) as u64,
                2 => depth - 1,
                _ => depth,
            },
            limit: match random.below(4) {
                0 => openings,
                1 => openings.saturating_sub(1),
                2 => random.below(openings as usize + 1) as u64,
                _ => MOST_OPENINGS,
            },
            table: draft.table(),
            room: random_room(random),
            ..Arguments::text(text.as_bytes())
        });
    }
}

/// Up to so many pieces, most of them references to what is defined already.
fn referring(random: &mut Random, defined: &[(&str, Needs)], most: usize) -> (String, Needs) {
    let (mut text, mut needs) = (
        String::new(),
        Needs {
            openings: 0,
            depth: 1,
        },
    );
    for _ in 0..random.below(most + 1) {
        if defined.is_empty() || random.below(4) == 0 {
            text += random.pick(&OTHERS);
            continue;
        }
        let (name, inner) = random.pick(defined);
        text += &format!("&{name};");
        needs.openings += 1 + inner.openings;
        needs.depth = needs.depth.max(1 + inner.depth);
    }
    (text, needs)
}
