//! Inputs that a fuzzer found, kept for the comparison and the stored results.

use crate::arguments::{Arguments, Sink};
use crate::call::Call;
use crate::cut::{cut, cut_for};
use crate::hex::{bytes, hex};
use crate::line::{is_short, line};
use std::collections::{BTreeMap, HashSet};
use std::fs;
use std::io::{Result, Write};

/// One input to a line: the call's name, and in hexadecimal what cut.rs reads after the call; `#` starts a remark.
const KEPT: &str = include_str!("../corpus/fuzz.txt");

/// Stored lines are no longer than this.
const LONGEST_LINE: usize = 750;

/// Those of this call.
pub fn each(call: &Call, sink: &mut Sink) {
    for (name, digits) in KEPT.lines().filter_map(|line| line.split_once(' ')) {
        if name == call.name {
            let input = bytes(digits).expect("hexadecimal digits in corpus/fuzz.txt");
            cut_for(call, &input, &mut |arguments, _| sink(arguments));
        }
    }
}

/// Prints those of the folder's inputs whose answers differ, a few of each call and number.
pub fn choose(folder: &str, out: &mut dyn Write) -> Result<()> {
    let mut groups = BTreeMap::new();
    for entry in fs::read_dir(folder)? {
        let input = fs::read(entry?.path())?;
        cut(&input, &mut |call, arguments, _| {
            let input = input.get(1..).unwrap_or(&[]);
            if let Some((number, found)) = candidate(call, &arguments, input) {
                let group: &mut Vec<_> = groups.entry((call.name, number)).or_default();
                group.push(found);
            }
        });
    }
    writeln!(
        out,
        "# What a fuzzer found: ../../scripts/fuzz writes this file, ../src/corpus.rs reads it."
    )?;
    for ((call, number), group) in groups {
        eprintln!("{call}, number {number}: {} inputs", group.len());
        for found in few(group) {
            writeln!(out, "{call} {}", hex(&found.input))?;
        }
    }
    Ok(())
}

/// Ordered by the length of its line first, then by all of it, so that the choice is the same each time.
#[derive(PartialEq, Eq, PartialOrd, Ord)]
struct Found {
    length: usize,
    words: (u64, u64),
    input: Vec<u8>,
}

fn candidate(call: &Call, arguments: &Arguments, input: &[u8]) -> Option<(u32, Found)> {
    let answer = (call.expected)(arguments);
    let length = line(call, arguments, &answer).len();
    let short = is_short(arguments, &answer) && length <= LONGEST_LINE;
    let found = Found {
        length,
        words: (answer.first, answer.second),
        input: input.to_vec(),
    };
    short.then_some((answer.number, found))
}

/// The longest, the shortest and one between them, each with words of its own.
fn few(mut group: Vec<Found>) -> Vec<Found> {
    let mut seen = HashSet::new();
    group.sort();
    group.retain(|found| seen.insert(found.words));
    let picked = [0, group.len() / 2, group.len() - 1];
    let indexed = group.into_iter().enumerate();
    let few = indexed.filter(|(index, _)| picked.contains(index));
    few.map(|(_, found)| found).collect()
}
