//! The Rust's walk and writer beside ours.

use crate::arguments::{HAND, LONGEST_TEXT};
use crate::counting;
use crate::draft::Draft;
use crate::rows::attribute::{self, exact_values, long_values, short_values};
use crate::rows::attribute::{rust_normalize, rust_normalize_strictly};
use crate::rows::table::{ours, Ours, TableRule, Tables};
use crate::rust::escape::{escape_attribute, EscapeError};
use crate::table::Definition;
use crate::timing::{self, aligned, letters_with, writing_row, Made};

const CALLS: [&str; 2] = ["canonical_form, 1.0", "canonical_form, 1.1"];

const STRICT_CALLS: [&str; 2] = ["canonical_form_strict, 1.0", "canonical_form_strict, 1.1"];

pub fn timed(run: impl Ours) -> Vec<timing::Row> {
    let sides: (_, TableRule) = (run, rust_canonical);
    let mut rows = attribute::timed(CALLS, sides);
    rows.extend(attribute::exactly_timed(CALLS[0], sides));
    rows.push(longest(run));
    rows
}

/// The longest text. The row tells the memory: beside the text the caller sets its form and 4 bytes aside (K7).
fn longest(run: impl Ours) -> timing::Row {
    let text = aligned(&letters_with(&["\t", "&lt;"], 100, LONGEST_TEXT));
    let tables = Tables::new(Draft::of(&[]));
    let make = move |text| rust_canonical(text, 0, tables.read).unwrap();
    let room = make(std::str::from_utf8(text).unwrap()).0.len();
    let input = format!("sparse; lent beside it: {room} bytes of form, {HAND} of scratch").leak();
    let ours = ours(run, text, 0, tables.lent, room);
    writing_row(CALLS[0], input, text, ours, make)
}

pub fn counted(rows: &mut Vec<counting::Row>, run: impl Ours) {
    let sides: (_, TableRule) = (run, rust_canonical);
    for (call, version) in CALLS.into_iter().zip([0, 2]) {
        short_values(rows, call, version, 64, sides);
        long_values(rows, call, version, sides);
    }
    exact_values(rows, CALLS[0], sides);
}

pub fn strictly_timed(run: impl Ours) -> Vec<timing::Row> {
    attribute::timed(STRICT_CALLS, (run, rust_strict_canonical))
}

pub fn strictly_counted(rows: &mut Vec<counting::Row>, run: impl Ours) {
    let sides: (_, TableRule) = (run, rust_strict_canonical);
    for (call, version) in STRICT_CALLS.into_iter().zip([0, 2]) {
        short_values(rows, call, version, 64, sides);
    }
}

/// No value here holds what only our writer escapes under 1.1.
fn rust_canonical(
    text: &'static str,
    version: u8,
    definitions: &[Definition<'static>],
) -> Result<Made, EscapeError> {
    let (value, openings) = rust_normalize(text, version, definitions)?;
    Ok((escape_attribute(value), openings))
}

fn rust_strict_canonical(
    text: &'static str,
    version: u8,
    definitions: &[Definition<'static>],
) -> Result<Made, EscapeError> {
    let (value, openings) = rust_normalize_strictly(text, version, definitions)?;
    Ok((escape_attribute(value), openings))
}
