//! Rows of texts with one to 10,000 references, through tables of up to 4,096 names. The Rust's side has the definitions in a `HashMap`,
//! made before; ours checks its table each time.

use super::table::{ours, Ours};
use crate::counting;
use crate::draft::Draft;
use crate::inputs::name_hash::names_of_one_hash;
use crate::oracle::entities::walk_refusal;
use crate::random::{Random, DEFAULT_SEED};
use crate::rust::escape::{resolve_xml_entity, EscapeError};
use crate::table::Table;
use crate::timing::{self, aligned, Made, Once};
use std::collections::hash_map::DefaultHasher;
use std::collections::HashMap;
use std::hash::BuildHasherDefault;
use std::hint::black_box;
use std::str::from_utf8;

/// std's, whose keys are always the same: so the instructions are too.
pub type Map = HashMap<&'static str, &'static str, BuildHasherDefault<DefaultHasher>>;

/// What the Rust makes of a text, with the function that it asks for names.
pub type MapRule = fn(&'static str, &'static Map) -> Result<Made, EscapeError>;

pub fn resolved(map: &'static Map, name: &str) -> Option<&'static str> {
    map.get(name).copied().or_else(|| resolve_xml_entity(name))
}

const LENGTHS: [usize; 2] = [8, 255];
const COUNTS: [usize; 6] = [4, 16, 64, 256, 1024, 4096];
const MOST: usize = 4096;

/// Which names a text refers to.
#[derive(Clone, Copy)]
enum Which {
    /// Each drawn at random.
    Random,
    Last,
    /// At random, and the last reference to none.
    Unknown,
    /// The five in turn.
    Predefined,
}

/// In every table, so many references.
const ALWAYS: [(Which, usize); 4] = [
    (Which::Random, 1),
    (Which::Random, 10),
    (Which::Random, 1000),
    (Which::Random, 10_000),
];
/// In a small, a middle and the longest table.
const SOMETIMES: [(Which, usize); 6] = [
    (Which::Last, 1),
    (Which::Last, 1000),
    (Which::Unknown, 1),
    (Which::Unknown, 1000),
    (Which::Predefined, 10),
    (Which::Predefined, 1000),
];

/// A table for both sides, and its names.
struct Names {
    names: Vec<String>,
    table: Table<'static>,
    map: &'static Map,
}

struct Input {
    name: String,
    text: &'static [u8],
    table: Table<'static>,
    map: &'static Map,
}

pub fn timed(call: &str, run: impl Ours, rule: MapRule) -> Vec<timing::Row> {
    let row = |input: Input| {
        let (one, other) = sides(&input, run, rule);
        let unchecked = None::<fn(&mut [u64; 2]) -> u32>;
        let bytes = input.text.len();
        timing::row(call, input.name.leak(), bytes, one, other, unchecked)
    };
    inputs().into_iter().map(row).collect()
}

pub fn counted(rows: &mut Vec<counting::Row>, call: &str, run: impl Ours, rule: MapRule) {
    for input in inputs() {
        let (one, other) = sides(&input, run, rule);
        rows.push(counting::Row {
            call: call.to_string(),
            bytes: input.text.len(),
            input: input.name,
            runs_before: 1,
            ours: Box::new(one),
            rust: Box::new(other),
        });
    }
}

/// Both check the text, and copy the result to a buffer that is long enough.
fn sides(input: &Input, run: impl Ours, rule: MapRule) -> (impl Once, impl Once) {
    let &Input {
        text, table, map, ..
    } = input;
    let (rule, room) = (black_box(rule), text.len());
    let out = vec![0; room].leak();
    let rust = move |words: &mut [u64; 2]| {
        let text = from_utf8(black_box(text)).unwrap();
        match rule(text, map) {
            Ok((result, openings)) => {
                out[..result.len()].copy_from_slice(result.as_bytes());
                black_box(&out);
                *words = [result.len() as u64, openings];
                0
            }
            Err(error) => {
                let answer = walk_refusal(error);
                *words = [answer.first, answer.second];
                answer.number
            }
        }
    };
    (ours(run, text, 0, table, room), rust)
}

fn inputs() -> Vec<Input> {
    let mut random = Random::new(DEFAULT_SEED);
    let mut inputs = vec![];
    for length in LENGTHS {
        for count in COUNTS {
            let names = Names::new(numbered(length, count));
            let few: &[_] = match count {
                4 | 256 | MOST => &SOMETIMES,
                _ => &[],
            };
            for &(which, references) in ALWAYS.iter().chain(few) {
                let what = format!("{count} names of {length} bytes");
                inputs.push(names.input(&mut random, which, references, &what));
            }
        }
    }
    let names = Names::new(names_of_one_hash(&mut random, MOST));
    inputs.push(names.input(&mut random, Which::Random, 1000, "4096 names of one hash"));
    let names = Names::new(numbered(8, MOST));
    inputs.push(names.after_a_build());
    inputs
}

/// Names that differ at their ends.
fn numbered(length: usize, count: usize) -> Vec<String> {
    let name = |index| format!("{index:n>length$}");
    (0..count).map(name).collect()
}

impl Names {
    fn new(names: Vec<String>) -> Self {
        let mut draft = Draft::default();
        for name in &names {
            draft.pool.extend_from_slice(name.as_bytes());
        }
        // One text for all, as short names have; long names leave the pool no room for more.
        let text = (draft.pool.len(), 5);
        draft.pool.extend_from_slice(b"Panel");
        let mut start = 0;
        for name in &names {
            draft.refer((start, name.len()), text);
            start += name.len();
        }
        let table = Box::leak(Box::new(draft.ended())).table();
        let definitions = table.definitions().expect("a sound table");
        let pairs = definitions
            .iter()
            .map(|defined| (defined.name, defined.text.expect("no external entity")));
        let map = Box::leak(Box::new(pairs.collect()));
        Names { names, table, map }
    }

    /// One reference after the other, with a letter before each.
    fn input(&self, random: &mut Random, which: Which, references: usize, what: &str) -> Input {
        const FIVE: [&str; 5] = ["lt", "gt", "amp", "apos", "quot"];
        let mut text = String::new();
        for index in 0..references {
            let name = match which {
                Which::Last => self.names.last().expect("a name"),
                Which::Predefined => FIVE[index % FIVE.len()],
                Which::Unknown if index + 1 == references => "unknown0",
                Which::Random | Which::Unknown => &self.names[random.below(self.names.len())],
            };
            text += &format!("a&{name};");
        }
        let which = match which {
            Which::Random => "at random",
            Which::Last => "to the last",
            Which::Unknown => "the last unknown",
            Which::Predefined => "to the five",
        };
        self.of(format!("{references} references, {which}, {what}"), &text)
    }

    /// Few references, which pass so many names that an index is made, and has little use.
    fn after_a_build(&self) -> Input {
        let last = self.names.last().expect("a name");
        let text = "a".repeat(1100) + &format!("&{last};").repeat(3);
        let name = format!("1,100 letters, 3 references, to the last, {MOST} names of 8 bytes");
        self.of(name, &text)
    }

    fn of(&self, name: String, text: &str) -> Input {
        Input {
            name,
            text: aligned(text.as_bytes()),
            table: self.table,
            map: self.map,
        }
    }
}
