//! The least depth beside one normalization at depth 128 that only counts, with an output of length 0. Both are ours: the Rust has neither,
//! and the count stands in its column.

use super::answer::reading;
use crate::arguments::Arguments;
use crate::counting;
use crate::draft::Draft;
use crate::inputs::sizes::MEBIBYTE;
use crate::random::{Random, DEFAULT_SEED};
use crate::rows::table::{ours, Ours, Tables};
use crate::table::Table;
use crate::timing::{self, aligned, letters_with, Once};

const CALLS: [(&str, u8); 2] = [
    ("least_depth, 1.0, beside a count", 0),
    ("least_depth, 1.1, beside a count", 2),
];

/// More than the walk's memory has slots.
const MANY: usize = 40;

struct Input {
    name: &'static str,
    text: &'static [u8],
    table: Table<'static>,
}

pub fn timed(least: impl Ours, count: impl Ours) -> Vec<timing::Row> {
    let mut rows = vec![];
    for (call, version) in CALLS {
        for input in inputs() {
            let (one, other) = sides(&input, version, (least, count));
            let bytes = input.text.len();
            let unchecked = None::<fn(&mut [u64; 2]) -> u32>;
            rows.push(timing::row(call, input.name, bytes, one, other, unchecked));
        }
    }
    rows
}

pub fn counted(rows: &mut Vec<counting::Row>, least: impl Ours, count: impl Ours) {
    for (call, version) in CALLS {
        for input in inputs() {
            let (one, other) = sides(&input, version, (least, count));
            rows.push(counting::Row {
                call: call.to_string(),
                input: input.name.to_string(),
                bytes: input.text.len(),
                runs_before: 1,
                ours: Box::new(one),
                rust: Box::new(other),
            });
        }
    }
}

/// The count can't tell the depth: it is put beside it, so that both sides answer alike.
fn sides(
    input: &Input,
    version: u8,
    (least, count): (impl Ours, impl Ours),
) -> (impl Once, impl Once) {
    let &Input { text, table, .. } = input;
    let depth = reading(&Arguments {
        choice: version,
        table,
        ..Arguments::text(text)
    });
    assert_eq!(depth.number, 0, "{}", input.name);
    let mut counting = ours(count, text, version, table, 0);
    let counted = move |words: &mut [u64; 2]| {
        let number = counting(words);
        *words = [depth.first, 0];
        if number == 19 {
            0
        } else {
            number
        }
    };
    (ours(least, text, version, table, 0), counted)
}

fn inputs() -> Vec<Input> {
    let mut random = Random::new(DEFAULT_SEED);
    let empty = Draft::of(&[]);
    let few = Draft::of(&[("n", "x&m;y&m;"), ("m", "&o;"), ("o", "z")]);
    let mut inputs = vec![];
    let mut add = |name, text: &[u8], draft: &Draft| {
        inputs.push(Input {
            name,
            text: aligned(text),
            table: Tables::new(draft.clone()).lent,
        });
    };
    for size in [8, 64, MEBIBYTE] {
        add("plain", &letters_with(&[], 0, size), &empty);
    }
    for size in [64, 1024, MEBIBYTE] {
        let text = letters_with(&["&n;"], 16, size);
        add("nested entities", &text, &few);
    }
    for size in [64, 1024, MEBIBYTE] {
        add("references alone", &letters_with(&["&m;"], 1, size), &few);
    }
    add("a chain of 100", b"Panel &n0;", &Draft::chain(100, "x"));
    for size in [8, 64, 1024, MEBIBYTE] {
        let mut text = letters_with(&[], 0, size);
        text[size / 2] = b'\t';
        add("one TAB", &text, &empty);
    }
    for size in [64, 1024, MEBIBYTE] {
        let blanks = (0..size).map(|_| random.pick(b"\t\n\r"));
        add("blanks alone", &blanks.collect::<Vec<u8>>(), &empty);
    }
    for size in [64, 1024, MEBIBYTE] {
        add("TABs alone", &vec![b'\t'; size], &empty);
    }
    for (name, count) in [
        ("40 names, 1,000 references", MANY),
        ("400 names, 1,000 references", 10 * MANY),
    ] {
        let flat = of_many(&mut random, count, |random, _| some_letters(random));
        let text = referring(&mut random, 0..count, 1000);
        add(name, text.as_bytes(), &flat);
    }
    let paired = of_many(&mut random, MANY, |random, index| match index < MANY / 2 {
        true => some_letters(random) + &referring(random, MANY / 2..MANY, 2),
        false => some_letters(random),
    });
    let text = referring(&mut random, 0..MANY, 1000);
    add(
        "40 names, half of them of two more, 1,000 references",
        text.as_bytes(),
        &paired,
    );
    let levels = of_many(&mut random, MANY, |random, index| {
        match (index / 10 + 1) * 10 {
            next if next < MANY => referring(random, next..next + 10, 10),
            _ => some_letters(random),
        }
    });
    let text = referring(&mut random, 0..10, 10);
    add(
        "40 names in four levels, ten in each text",
        text.as_bytes(),
        &levels,
    );
    inputs
}

/// `n0`, `n1` .. with these texts.
fn of_many(
    random: &mut Random,
    count: usize,
    text_of: impl Fn(&mut Random, usize) -> String,
) -> Draft {
    let mut draft = Draft::default();
    for index in 0..count {
        let text = text_of(random, index);
        draft.define(format!("n{index}").as_bytes(), text.as_bytes());
    }
    draft.ended()
}

fn some_letters(random: &mut Random) -> String {
    let length = 3 + random.below(20);
    (0..length)
        .map(|_| random.pick(&['a', 'e', 'n', 'r', 's', 't', ' ']))
        .collect()
}

/// So many references to names of these, drawn at random.
fn referring(random: &mut Random, names: std::ops::Range<usize>, count: usize) -> String {
    let name = |random: &mut Random| names.start + random.below(names.len());
    (0..count).map(|_| format!("&n{};", name(random))).collect()
}
