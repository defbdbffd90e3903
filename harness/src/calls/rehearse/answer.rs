//! A rehearsal's report, in document 02's words: each value is asked for by itself, with room, and the answers are counted.

use crate::answer::{refusal, success, Answer};
use crate::arguments::{Arguments, MOST_SPANS};
use crate::lent::{Span, REPORT};
use crate::oracle::checks::{defined_by, settings_checked};
use crate::oracle::reading::{self, Rule};
use crate::oracle::text::checked;
use crate::oracle::{entities, result::Made};
use std::collections::HashMap;

/// What 1 to 9 ask of the whole text, the settings and the table.
fn checked_whole(arguments: &Arguments) -> Result<(), Answer> {
    settings_checked(arguments)?;
    checked(arguments.text)?;
    defined_by(arguments.table).map(drop)
}

/// The length of a value's result, or the number that refuses it.
type Fared = Result<usize, u32>;

fn fared(made: Result<Made, Answer>) -> Fared {
    match made {
        Ok(made) => Ok(made.bytes.len() + made.left_out),
        Err(refused) => Err(refused.number),
    }
}

/// By the Rust wherever it can be asked. A value that comes again fares as it did.
pub fn answer(arguments: &Arguments) -> Answer {
    if let Err(refused) = checked_whole(arguments) {
        return refused;
    }
    if arguments.spans.len() > MOST_SPANS {
        return refusal(31, MOST_SPANS as u64);
    }
    let mut known: HashMap<&[u8], Fared> = HashMap::new();
    let mut report = vec![0; REPORT];
    for (index, &span) in arguments.spans.iter().enumerate() {
        let Some(text) = inside(arguments, span) else {
            return refusal(31, index as u64);
        };
        let fared = *known
            .entry(text)
            .or_insert_with(|| fared(entities::normalized(&Arguments { text, ..*arguments })));
        match fared {
            Ok(length) => {
                report[0] += 1;
                report[REPORT - 1] += length as u64;
            }
            Err(number) => report[number as usize] += 1,
        }
    }
    Answer {
        report,
        ..success(0)
    }
}

fn inside<'a>(arguments: &Arguments<'a>, span: Span) -> Option<&'a [u8]> {
    let start = usize::try_from(span.start).ok()?;
    let length = usize::try_from(span.length).ok()?;
    arguments.text.get(start..)?.get(..length)
}

/// Without the Rust, and place by place: how many values have this number, and the sum of the lengths.
pub fn reading(arguments: &Arguments) -> Answer {
    if let Err(refused) = checked_whole(arguments) {
        return refused;
    }
    let count = arguments.spans.len();
    if count > MOST_SPANS {
        return refusal(31, MOST_SPANS as u64);
    }
    let leaves = |span: &Span| {
        u128::from(span.start) + u128::from(span.length) > arguments.text.len() as u128
    };
    if let Some(index) = arguments.spans.iter().position(leaves) {
        return refusal(31, index as u64);
    }
    let mut known: HashMap<&[u8], Fared> = HashMap::new();
    let all: Vec<Fared> = arguments
        .values()
        .expect("no span leaves the text")
        .into_iter()
        .map(|text| {
            let arguments = Arguments { text, ..*arguments };
            let read = || fared(reading::normalized(&arguments, Rule::Lenient));
            *known.entry(text).or_insert_with(read)
        })
        .collect();
    let fallen = |number: u32| all.iter().filter(|&&one| one == Err(number)).count() as u64;
    let total: usize = all.iter().flatten().sum();
    let accepted = all.iter().flatten().count() as u64;
    let report = [accepted]
        .into_iter()
        .chain((1..=27).map(fallen))
        .chain([total as u64]);
    Answer {
        report: report.collect(),
        ..success(0)
    }
}
