//! The Rust that normalizes, splits at spaces and joins, beside ours.

use crate::draft::Draft;
use crate::inputs::sizes::MEBIBYTE;
use crate::lent::Lent;
use crate::rows::attribute::rust_normalize;
use crate::rows::table::{table_row, Ours, References, Tables, GROWTH};
use crate::rust::escape::EscapeError;
use crate::table::Definition;
use crate::timing::{letters_with, Made, Row};

const CALLS: [&str; 2] = ["normalize_nmtokens, 1.0", "normalize_nmtokens, 1.1"];
const INPUTS: [References; 5] = [
    ("one token", &[], 0),
    ("tokens of 8 bytes", &[" "], 9),
    ("tokens of 8 bytes, two spaces", &["  "], 10),
    ("lines of tokens", &[" ", " ", " ", "\n\t\t"], 9),
    ("tokens by entities", &[" &a; "], 16),
];

pub fn timed(run: impl Ours) -> Vec<Row> {
    let run = in_scratch(run);
    let tables = Tables::new(Draft::of(&[("a", "panel7")]));
    let mut rows = vec![];
    for (call, version) in CALLS.into_iter().zip([0, 2]) {
        for size in [64, MEBIBYTE] {
            for (input, pieces, distance) in INPUTS {
                let text = letters_with(pieces, distance, size);
                rows.push(table_row(
                    call,
                    input,
                    &text,
                    version,
                    tables,
                    (run, rust_nmtokens),
                ));
            }
        }
    }
    rows
}

/// With a scratch for the longest value here.
fn in_scratch(run: impl Ours) -> impl Ours {
    const LONGEST: usize = GROWTH * MEBIBYTE;
    let scratch = vec![0; LONGEST].leak().as_mut_ptr();
    move |lent: &Lent| {
        run(&Lent {
            scratch,
            scratch_length: LONGEST,
            ..*lent
        })
    }
}

/// What is joined is made in new memory once, of the value's length at most.
fn rust_nmtokens(
    text: &'static str,
    version: u8,
    definitions: &[Definition<'static>],
) -> Result<Made, EscapeError> {
    let (value, openings) = rust_normalize(text, version, definitions)?;
    let mut result = String::with_capacity(value.len());
    for token in value.split(' ').filter(|token| !token.is_empty()) {
        if !result.is_empty() {
            result.push(' ');
        }
        result.push_str(token);
    }
    Ok((result.into(), openings))
}
