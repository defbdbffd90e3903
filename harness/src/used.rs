//! Writes values and the names that reading them looks up, by the documents' own reading: what `govlezna used` has to print.

use crate::answer::Answer;
use crate::arguments::{Arguments, Room};
use crate::call::Call;
use crate::calls::normalize_attribute_value;
use crate::hex::hex;
use crate::oracle::reading::{looked_up, Rule};
use crate::random::{Random, DEFAULT_SEED};
use crate::table::{look_up, Meaning};
use std::collections::BTreeMap;
use std::io::{Result, Write};

const HEADER: &str = "\
# What `govlezna used --json` has to say of values with their tables, by the harness's own reading of documents 01 and 02; the library has
# no part in it. tests/used.sh replays it. Made in harness/ by
#   cargo run --release --offline -- used >../tests/used.txt
# RULE VERSION DEPTH LIMIT TEXT LIST POOL = NUMBER NAMES; bytes are in hexadecimal, with - for none.
";

/// Of each number so many rows, and so many of them without a name.
const MOST: usize = 20;
const MOST_EMPTY: usize = 4;
const LONGEST: usize = 150;
const ROUNDS: usize = 30;

pub fn write(out: &mut dyn Write) -> Result<()> {
    out.write_all(HEADER.as_bytes())?;
    rows(
        "lenient",
        &normalize_attribute_value::CALL,
        Rule::Lenient,
        out,
    )?;
    rows(
        "strict",
        &normalize_attribute_value::STRICT,
        Rule::Strict,
        out,
    )
}

fn rows(word: &str, call: &Call, rule: Rule, out: &mut dyn Write) -> Result<()> {
    let (mut lines, mut counts) = (vec![], BTreeMap::new());
    let mut random = Random::new(DEFAULT_SEED);
    for _ in 0..ROUNDS {
        (call.random)(&mut random, &mut |arguments| {
            let room = Room::Exact;
            let answer = (call.expected)(&Arguments { room, ..arguments });
            let names = looked_up(&arguments, rule);
            if is_fit(&arguments, &answer) && is_wanted(&mut counts, answer.number, &names) {
                lines.push(line(word, &arguments, &answer, &names));
            }
        });
    }
    lines.iter().try_for_each(|line| writeln!(out, "{line}"))
}

/// Short, and no argument refused.
fn is_fit(arguments: &Arguments, answer: &Answer) -> bool {
    let table = arguments.table;
    let read = [arguments.text, table.list, table.pool];
    !matches!(answer.number, 1..=9) && read.iter().all(|bytes| bytes.len() <= LONGEST)
}

fn is_wanted(counts: &mut BTreeMap<(u32, bool), usize>, number: u32, names: &[String]) -> bool {
    let most = if names.is_empty() { MOST_EMPTY } else { MOST };
    let count = counts.entry((number, names.is_empty())).or_default();
    *count += 1;
    *count <= most
}

fn line(word: &str, arguments: &Arguments, answer: &Answer, names: &[String]) -> String {
    let table = arguments.table;
    let definitions = table.definitions().expect("the table is accepted");
    let bound = |name: &String| match look_up(&definitions, name) {
        Meaning::Defined(_) => "text",
        Meaning::External => "external",
        Meaning::Predefined(_) => "predefined",
        Meaning::Nothing => "unknown",
    };
    let objects = names.iter().map(|name| {
        format!(
            "{{\"name\":{},\"bound\":\"{}\"}}",
            string(name),
            bound(name)
        )
    });
    format!(
        "{word} {} {} {} {} {} {} = {} [{}]",
        arguments.choice,
        arguments.depth,
        arguments.limit,
        hex(arguments.text),
        hex(table.list),
        hex(table.pool),
        answer.number,
        objects.collect::<Vec<_>>().join(","),
    )
}

/// In JSON: RFC 8259, section 7.
fn string(text: &str) -> String {
    let mut quoted = String::from("\"");
    for character in text.chars() {
        match character {
            '"' | '\\' => quoted.extend(['\\', character]),
            '\0'..='\x1F' | '\x7F' => quoted += &format!("\\u{:04x}", u32::from(character)),
            _ => quoted.push(character),
        }
    }
    quoted + "\""
}
