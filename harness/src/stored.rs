//! Writes the Rust's answers to a file that is replayed where there is no Rust.

use crate::answer::Answer;
use crate::arguments::Arguments;
use crate::call::{Call, Parameter};
use crate::calls::CALLS;
use crate::corpus;
use crate::line::{is_replayed, is_short, line};
use crate::random::{Random, DEFAULT_SEED};
use std::collections::HashSet;
use std::io::{Result, Write};

const HEADER: &str = "\
# What the Rust answers: std::str::from_utf8, and escape.rs and utils.rs of quick-xml 0.42.0, by
# the numbers of document 01. The library has no part in it. The table's format, which the Rust has
# not, is read as documents 01 and 02 say, and lists with external entities, marked lists, and
# characters that a strict call refuses, which the Rust knows nothing of, by the harness's own
# reading of the walks; registers by the harness's own register, and the writers of Canonical XML and
# declarations by its reading of the standards; a least depth by what is answered at each depth. Made in harness/ by
#   cargo run --release --offline -- stored ../crates/replay/stdin
# Bytes are in hexadecimal, with - for none; ROOM is the output's length, OUTPUT the result alone.
";

/// Not those with spans: crates/replay reads none.
fn is_replayed_there(call: &&Call) -> bool {
    !call.has(Parameter::Spans)
}

/// The seams of each call, the documents' rows and what a fuzzer found, each once. Rows may be longer than the others.
pub fn write(calls: &[&Call], out: &mut dyn Write) -> Result<()> {
    out.write_all(HEADER.as_bytes())?;
    let replayed = CALLS.iter().filter(is_replayed_there);
    for call in replayed.filter(|call| !call.stored.is_empty()) {
        writeln!(out, "#   {}", call.stored)?;
    }
    for call in calls.iter().copied().filter(is_replayed_there) {
        let mut lines = vec![];
        let mut seen = HashSet::new();
        let mut store = |arguments: Arguments, is_stored: fn(&Arguments, &Answer) -> bool| {
            let answer = (call.expected)(&arguments);
            if is_stored(&arguments, &answer) {
                let line = line(call, &arguments, &answer);
                if seen.insert(line.clone()) {
                    lines.push(line);
                }
            }
        };
        (call.seams)(&mut Random::new(DEFAULT_SEED), &mut |given| {
            store(given, is_short)
        });
        for row in call.rows() {
            row.give(&mut |given| store(given, is_replayed));
        }
        corpus::each(call, &mut |given| store(given, is_short));
        for line in lines {
            writeln!(out, "{line}")?;
        }
    }
    Ok(())
}
