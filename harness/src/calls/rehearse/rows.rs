//! Jobs beside a loop over our own normalization with an output of length 0, and beside the Rust with a `HashMap` of the names, which makes
//! each value and adds the lengths.

use crate::arguments::{DEEPEST, MOST_OPENINGS, MOST_SPANS};
use crate::draft::Draft;
use crate::lent::{Lent, Span, REPORT};
use crate::random::{Random, DEFAULT_SEED};
use crate::rows::table::{Ours, Tables};
use crate::rust::escape::resolve_xml_entity;
use crate::rust::XmlVersion;
use crate::table::{Definition, Table};
use crate::timing::{aligned, row, seldom, with_left, Once, Row};
use std::collections::HashMap;
use std::hint::black_box;
use std::str::from_utf8;

/// What a job's values have beside letters.
#[derive(Clone, Copy)]
enum Kind {
    Plain,
    /// So many references to names of the table; without one to two of the five.
    References(usize),
}

struct Job {
    text: &'static [u8],
    spans: &'static [Span],
    tables: Tables,
}

impl Job {
    /// So many values of 8 to 64 bytes, in a table of so many names; everything is drawn at random.
    fn new(count: usize, kind: Kind, names: usize) -> Self {
        let mut random = Random::new(DEFAULT_SEED);
        let (mut text, mut spans) = (String::new(), vec![]);
        for _ in 0..count {
            let start = text.len();
            text += &value(&mut random, kind, names);
            spans.push(Span {
                start: start as u64,
                length: (text.len() - start) as u64,
            });
            text += "\"/><panel name=\"";
        }
        let mut draft = Draft::default();
        for index in 0..names {
            let length = 3 + random.below(20);
            draft.define(
                name(index).as_bytes(),
                letters(&mut random, length).as_bytes(),
            );
        }
        Job {
            text: aligned(text.as_bytes()),
            spans: spans.leak(),
            tables: Tables::new(draft.ended()),
        }
    }
}

fn name(index: usize) -> String {
    format!("panel{index}")
}

fn letters(random: &mut Random, length: usize) -> String {
    let letters = (0..length).map(|_| random.pick(b"abcdefghijklmnopqrstuvwxyz      ") as char);
    letters.collect()
}

fn value(random: &mut Random, kind: Kind, names: usize) -> String {
    let length = 8 + random.below(57);
    let Kind::References(count) = kind else {
        return letters(random, length);
    };
    let mut value = letters(random, length / (count + 1));
    for _ in 0..count {
        value += &match names {
            0 => random.pick(&["&lt;", "&amp;"]).to_string(),
            _ => format!("&{};", name(random.below(names))),
        };
        value += &letters(random, length / (count + 1) / 2);
    }
    value
}

pub fn timed(rehearse: impl Ours, normalize: impl Ours) -> Vec<Row> {
    let mut rows = vec![];
    let counts = [64, 1024, MOST_SPANS];
    let kinds = [
        ("plain", Kind::Plain),
        ("two references each", Kind::References(2)),
    ];
    for (kind, each) in kinds {
        for (names, table) in [(0, "without a table"), (400, "400 names")] {
            for count in counts {
                let job = Job::new(count, each, names);
                let input = format!("{count} values, {kind}, {table}").leak();
                let row = beside_a_loop(input, job, rehearse, normalize);
                rows.push(match count {
                    MOST_SPANS => seldom(row), // the loop checks its table for each value
                    _ => row,
                });
            }
        }
    }
    for names in [10, 400, 4000] {
        let job = Job::new(MOST_SPANS, Kind::References(1), names);
        let input = format!("{MOST_SPANS} values, one reference each, {names} names").leak();
        rows.push(seldom(beside_a_map(input, job, rehearse)));
    }
    rows
}

/// Both sides tell how many are accepted, and the total.
fn ours(job: &Job, rehearse: impl Ours) -> impl Once {
    let &Job {
        text,
        spans,
        tables,
    } = job;
    let mut report = [0; REPORT];
    move |words: &mut [u64; 2]| {
        let number = rehearse(&Lent {
            spans: spans.as_ptr(),
            span_count: spans.len(),
            report: report.as_mut_ptr(),
            ..lent(text, tables.lent, words)
        });
        *words = [report[0], report[REPORT - 1]];
        number
    }
}

fn lent(text: &[u8], table: Table<'static>, words: &mut [u64; 2]) -> Lent {
    Lent {
        text: text.as_ptr(),
        text_length: text.len(),
        depth: DEEPEST,
        limit: MOST_OPENINGS,
        list: table.list.as_ptr(),
        list_length: table.list.len(),
        pool: table.pool.as_ptr(),
        pool_length: table.pool.len(),
        answer: words.as_mut_ptr(),
        ..Lent::NOTHING
    }
}

fn beside_a_loop(input: &'static str, job: Job, rehearse: impl Ours, normalize: impl Ours) -> Row {
    let Job {
        text,
        spans,
        tables,
    } = job;
    let one_by_one = move |words: &mut [u64; 2]| {
        let (mut accepted, mut total) = (0, 0);
        for span in spans {
            let number = normalize(&lent(part(text, span), tables.lent, words));
            accepted += u64::from(matches!(number, 0 | 19));
            total += words[0];
        }
        *words = [accepted, total];
        0
    };
    let none = None::<fn(&mut [u64; 2]) -> u32>;
    let call = "rehearse, beside a loop over normalization";
    row(
        call,
        input,
        text.len(),
        ours(&job, rehearse),
        one_by_one,
        none,
    )
}

fn part<'a>(text: &'a [u8], span: &Span) -> &'a [u8] {
    &text[span.start as usize..][..span.length as usize]
}

/// In the Rust's column the map is made for each job, in the next it is kept.
fn beside_a_map(input: &'static str, job: Job, rehearse: impl Ours) -> Row {
    let Job {
        text,
        spans,
        tables,
    } = job;
    let made = move |words: &mut [u64; 2]| {
        let names = map(black_box(tables.read));
        rust(text, spans, &names, words)
    };
    let names = map(tables.read);
    let kept = move |words: &mut [u64; 2]| rust(text, spans, &names, words);
    let none = None::<fn(&mut [u64; 2]) -> u32>;
    let call = "rehearse, beside quick-xml with a HashMap";
    let row = row(call, input, text.len(), ours(&job, rehearse), made, none);
    with_left(row, kept)
}

type Names = HashMap<&'static str, &'static str>;

fn map(definitions: &[Definition<'static>]) -> Names {
    let mut names = HashMap::new();
    for definition in definitions {
        let text = definition.text.expect("no external entity here");
        names.entry(definition.name).or_insert(text);
    }
    names
}

/// The text is checked once, as ours is.
fn rust(text: &'static [u8], spans: &[Span], names: &Names, words: &mut [u64; 2]) -> u32 {
    let text = from_utf8(black_box(text)).unwrap();
    let depth = DEEPEST as usize;
    let resolve = |name: &str| {
        names
            .get(name)
            .copied()
            .or_else(|| resolve_xml_entity(name))
    };
    let (mut accepted, mut total) = (0, 0);
    for span in spans {
        let value = &text[span.start as usize..][..span.length as usize];
        let made = XmlVersion::Explicit1_0.normalize_attribute_value(value, depth, resolve);
        if let Ok(made) = black_box(made) {
            accepted += 1;
            total += made.len() as u64;
        }
    }
    *words = [accepted, total];
    0
}
