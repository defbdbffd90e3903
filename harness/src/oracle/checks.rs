//! What the calls with a table check before they walk: document 01's alone, the Rust has nothing of it.

use super::text::length_checked;
use crate::answer::{refusal, Answer};
use crate::arguments::{Arguments, DEEPEST, MOST_OPENINGS};
use crate::table::{Definition, Table};

/// Refusals 1 to 4, which come before the text's bytes.
pub fn settings_checked(arguments: &Arguments) -> Result<(), Answer> {
    length_checked(arguments.text)?;
    if arguments.depth > DEEPEST {
        return Err(refusal(2, 0));
    }
    if arguments.limit > MOST_OPENINGS {
        return Err(refusal(3, 0));
    }
    match arguments.choice {
        0..=2 => Ok(()),
        _ => Err(refusal(4, 0)),
    }
}

/// Refusals 6 to 9.
pub fn defined_by(table: Table) -> Result<Vec<Definition>, Answer> {
    let refused = |(number, first)| refusal(number, first as u64);
    table.definitions().map_err(refused)
}
