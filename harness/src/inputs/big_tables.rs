//! Tables of up to 4,096 names, or of up to 8,190 commands, and texts that look up hundreds of them: what an index of names is made for.

use super::name_hash::names_of_one_hash;
use super::rooms::random_room;
use crate::arguments::{Arguments, Room, Sink, DEEPEST, MOST_OPENINGS};
use crate::draft::Draft;
use crate::random::Random;
use crate::table::{DEFINITION, EXTERNAL_DECLARATION, LONGEST_LIST, LONGEST_NAME, LONGEST_POOL};
use std::collections::HashSet;

/// How the names of a table are made of their numbers.
#[derive(Clone, Copy)]
enum Shape {
    /// `n17`.
    Short,
    /// Of eight bytes.
    Eight,
    /// Of 9 to 16 bytes, of which the last eight are the same in all.
    EndingAlike,
    /// Of 255 bytes that differ in the last four.
    EndingApart,
    /// Of 1 to 255 bytes, with the number at their start or at their end.
    Long,
    /// Any letters, of which two bytes are one; few are long, so that many are the same.
    Letters,
    /// Of one hash, in groups of so many: more than an index may have room for, or all of them.
    OneHash(usize),
}

const SHAPES: [Shape; 9] = [
    Shape::Short,
    Shape::Eight,
    Shape::EndingAlike,
    Shape::EndingApart,
    Shape::Long,
    Shape::Letters,
    Shape::OneHash(12),
    Shape::OneHash(40),
    Shape::OneHash(MOST_NAMES),
];

const MOST_NAMES: usize = (LONGEST_LIST - 2) / DEFINITION;
const COUNTS: [usize; 6] = [17, 65, 257, 1025, 2049, MOST_NAMES];
const TEXTS: usize = 12;
const FIVE: [&str; 5] = ["lt", "gt", "amp", "apos", "quot"];

/// A table, and what a text can refer to.
struct Big {
    draft: Draft,
    /// Names that are bound to a text.
    bound: Vec<Vec<u8>>,
    external: Vec<Vec<u8>>,
}

/// Every shape of names in tables of every size, each with some texts.
pub fn looked_up_often(random: &mut Random, sink: &mut Sink) {
    for shape in SHAPES {
        for count in COUNTS {
            let big = Big::new(random, shape, count);
            (0..TEXTS).for_each(|_| big.give(random, sink));
        }
    }
    let most = Big::of_most_commands();
    (0..TEXTS).for_each(|_| most.give(random, sink));
}

impl Big {
    /// Of so many names, or of as many as fit: some twice, some of the five, some external, after a mark or not.
    fn new(random: &mut Random, shape: Shape, count: usize) -> Self {
        let names = names(random, shape, count);
        let repeats = random.below(3) == 0;
        let one_external_of = random.pick(&[usize::MAX, usize::MAX, 64, 8]);
        let (mut draft, mut seen) = (Draft::default(), HashSet::new());
        let (mut bound, mut external) = (vec![], vec![]);
        for index in 0..count {
            let (name, is_external): (&[u8], bool) = match random.below(64) {
                0 => (random.pick(&FIVE).as_bytes(), false),
                _ if repeats => (
                    &names[random.below(index + 1)],
                    random.below(one_external_of) == 0,
                ),
                _ => (&names[index], random.below(one_external_of) == 0),
            };
            if !has_room(&draft) {
                break;
            }
            match is_external {
                true => draft.declare_external(name),
                false => define(random, &mut draft, name, &bound),
            }
            // The first binds.
            match seen.insert(name) {
                true if is_external => external.push(name.to_vec()),
                true => bound.push(name.to_vec()),
                false => {}
            }
        }
        Big {
            draft: draft.ended().marked_if(random.below(3) == 0),
            bound,
            external,
        }
    }

    /// 8,188 external entities between two that have texts.
    fn of_most_commands() -> Self {
        let count = (LONGEST_LIST - 2 - 2 * DEFINITION) / EXTERNAL_DECLARATION;
        let external: Vec<Vec<u8>> = (0..count)
            .map(|index| format!("x{index}").into_bytes())
            .collect();
        let mut draft = Draft::default();
        draft.define(b"first", b"1");
        external
            .iter()
            .for_each(|name| draft.declare_external(name));
        draft.define(b"last", b"2\t");
        Big {
            draft: draft.ended(),
            bound: vec![b"first".to_vec(), b"last".to_vec()],
            external,
        }
    }

    fn give(&self, random: &mut Random, sink: &mut Sink) {
        let text = self.text(random);
        sink(Arguments {
            choice: random.pick(&[0, 1, 2]),
            depth: match random.below(6) {
                0 => 1 + random.below(4) as u64,
                _ => DEEPEST,
            },
            limit: match random.below(6) {
                0 => random.below(400) as u64,
                _ => MOST_OPENINGS,
            },
            table: self.draft.table(),
            room: random_room(random),
            scratch: random.pick(&[
                Room::Exact,
                Room::Exact,
                Room::Exact,
                Room::Spare(9),
                Room::Short,
            ]),
            ..Arguments::text(&text)
        });
    }

    /// Hundreds of references, mostly to names that have a text; a few texts end in one that is refused.
    fn text(&self, random: &mut Random) -> Vec<u8> {
        const LEAST: usize = 1024;
        const PIECES: [&str; 6] = ["\t", "\r\n", "½", "&#65;", "\u{2028}", " "];
        let mut text = vec![];
        for _ in 0..100 + random.below(300) {
            match random.below(24) {
                0 => refer(&mut text, random.pick(&FIVE).as_bytes()),
                1 => text.extend_from_slice(random.pick(&PIECES).as_bytes()),
                _ => refer(&mut text, &self.bound[random.below(self.bound.len())]),
            }
            text.extend_from_slice(&b"abcdefgh"[..random.below(12).saturating_sub(4)]);
        }
        text.resize(text.len().max(LEAST), b'z');
        let some =
            |random: &mut Random, names: &[Vec<u8>]| names[random.below(names.len())].clone();
        match random.below(8) {
            0 => {
                let name = some(random, &self.bound);
                refer(&mut text, &nearly(random, &name));
            }
            1 if !self.external.is_empty() => refer(&mut text, &some(random, &self.external)),
            2 => text.push(b'&'),
            _ => {}
        }
        text
    }
}

/// As many different names as there are, mostly.
fn names(random: &mut Random, shape: Shape, count: usize) -> Vec<Vec<u8>> {
    if let Shape::OneHash(size) = shape {
        let groups = (0..count.div_ceil(size)).map(|_| names_of_one_hash(random, size.min(count)));
        return groups.flatten().map(String::into_bytes).collect();
    }
    let name = |index| name(random, shape, index);
    (0..count).map(name).collect()
}

fn name(random: &mut Random, shape: Shape, index: usize) -> Vec<u8> {
    let name = match shape {
        Shape::Short => format!("n{index}"),
        Shape::Eight => format!("eee{index:05}"),
        Shape::EndingAlike => format!("{index:0width$}-panel-n", width = 1 + index % 8),
        Shape::EndingApart => format!("{index:n>width$}", width = LONGEST_NAME),
        Shape::Long => {
            let rest = "e".repeat(random.below(LONGEST_NAME - 4));
            match random.below(2) {
                0 => format!("{rest}{index:04}"),
                _ => format!("{index:04}{rest}"),
            }
        }
        Shape::Letters | Shape::OneHash(_) => {
            let length = 1 + random.below(30).min(random.below(30));
            let letters = ["a", "b", "c", "d", "-", "_", "é"];
            (0..length).map(|_| random.pick(&letters)).collect()
        }
    };
    name.into_bytes()
}

/// For one more definition with a name and a text of any of these lengths.
fn has_room(draft: &Draft) -> bool {
    draft.list.len() + DEFINITION <= LONGEST_LIST - 2
        && draft.pool.len() + 3 * LONGEST_NAME <= LONGEST_POOL
}

/// Long names leave the pool no room for texts: these are then parts of the names. Few of the others refer to names before them.
fn define(random: &mut Random, draft: &mut Draft, name: &[u8], bound: &[Vec<u8>]) {
    if name.len() > LONGEST_NAME / 2 && name.is_ascii() {
        let start = draft.pool.len();
        draft.pool.extend_from_slice(name);
        let length = 1 + random.below(8);
        return draft.refer((start, name.len()), (start + name.len() - length, length));
    }
    let mut text = format!("{}", random.below(1000)).into_bytes();
    match random.below(16) {
        0 => text.clear(),
        1 => text.extend_from_slice("½\t".as_bytes()),
        2 if !bound.is_empty() => refer(&mut text, &bound[random.below(bound.len())]),
        _ => {}
    }
    draft.define(name, &text);
}

fn refer(text: &mut Vec<u8>, name: &[u8]) {
    text.extend([b"&", name, b";"].concat());
}

/// A name that is none of the table, mostly: with another byte, one less or one more.
fn nearly(random: &mut Random, name: &[u8]) -> Vec<u8> {
    let mut other = String::from_utf8_lossy(name).into_owned();
    match random.below(3) {
        0 => drop(other.pop()),
        1 => other.insert(0, 'q'),
        _ => other.push('q'),
    }
    other.into_bytes()
}
