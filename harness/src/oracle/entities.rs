//! What the calls with an entity table share. The walks are the Rust's, with the table behind its resolver; the table's format,
//! the count of openings, and 17 are document 01's. Tables with external entities and marked lists are not the Rust's: reading.rs answers
//! for them.

use super::checks::{defined_by, settings_checked};
use super::reading::{self, Rule};
use super::result::Made;
use super::text::checked;
use crate::answer::{refusal, Answer};
use crate::arguments::{Arguments, LONGEST_OUTPUT};
use crate::rust::escape::{unescape_with, EscapeError, ParseCharRefError};
use crate::rust::XmlVersion;
use crate::table::{Meaning, Names};

pub fn walk_refusal(error: EscapeError) -> Answer {
    match error {
        EscapeError::UnterminatedEntity(rest) => range_refusal(10, rest),
        EscapeError::UnrecognizedEntity(name, _) => range_refusal(11, name),
        EscapeError::InvalidCharRef(error) => number_refusal(error),
        EscapeError::TooManyNestedEntities => refusal(16, 0),
    }
}

fn range_refusal(number: u32, range: std::ops::Range<usize>) -> Answer {
    Answer {
        second: range.end as u64,
        ..refusal(number, range.start as u64)
    }
}

pub fn number_refusal(error: ParseCharRefError) -> Answer {
    match error {
        ParseCharRefError::UnexpectedSign => refusal(12, 0),
        ParseCharRefError::InvalidNumber(_) => refusal(13, 0),
        ParseCharRefError::InvalidCodepoint(value) => refusal(14, u64::from(value)),
        ParseCharRefError::IllegalCharacter(_) => refusal(15, 0),
    }
}

/// The normalized value, with the openings as its second word. The Rust's depth is document 01's.
pub fn normalized(arguments: &Arguments) -> Result<Made, Answer> {
    settings_checked(arguments)?;
    let text = checked(arguments.text)?;
    let definitions = defined_by(arguments.table)?;
    if !arguments.table.is_the_rusts(&definitions) {
        return reading::normalized(arguments, Rule::Lenient);
    }
    let names = Names::new(&definitions);
    let (mut openings, mut used_up) = (0, false);
    let resolve = |name: &str| match names.look_up(name) {
        // Without a text the Rust stops here, and says where the name stands.
        Meaning::Defined(_) if openings == arguments.limit => {
            used_up = true;
            None
        }
        Meaning::Defined(text) => {
            openings += 1;
            Some(text)
        }
        Meaning::Predefined(text) => Some(text),
        Meaning::External | Meaning::Nothing => None,
    };
    let version = version_of(arguments.choice);
    match version.normalize_attribute_value(text, arguments.depth as usize, resolve) {
        Ok(value) => Ok(Made {
            bytes: value.into_owned().into_bytes(),
            left_out: 0,
            second: openings,
        }),
        Err(EscapeError::UnrecognizedEntity(name, _)) if used_up => {
            Err(refusal(17, name.start as u64 - 1))
        }
        Err(error) => Err(walk_refusal(error)),
    }
}

/// By the strict rule (K8), of which the Rust knows nothing: 25 and 26 are the reading's, and every other answer is the Rust's.
pub fn strictly_normalized(arguments: &Arguments) -> Result<Made, Answer> {
    match reading::normalized(arguments, Rule::Strict) {
        Err(answer) if matches!(answer.number, 25 | 26) => Err(answer),
        _ => normalized(arguments),
    }
}

fn version_of(choice: u8) -> XmlVersion {
    match choice {
        0 => XmlVersion::Implicit1_0,
        1 => XmlVersion::Explicit1_0,
        _ => XmlVersion::Explicit1_1,
    }
}

/// The table is asked for every name. What no output is long enough for is counted and not made.
pub fn unescaped(arguments: &Arguments) -> Result<Made, Answer> {
    let text = checked(arguments.text)?;
    let definitions = defined_by(arguments.table)?;
    if !arguments.table.is_the_rusts(&definitions) {
        return reading::unescaped(arguments);
    }
    let names = Names::new(&definitions);
    let (mut copied, mut left_out) = (0, 0);
    let mut resolve = |name: &str| match names.look_up(name) {
        Meaning::Defined(text) if copied + text.len() > LONGEST_OUTPUT => {
            left_out += text.len();
            Some("")
        }
        Meaning::Defined(text) => {
            copied += text.len();
            Some(text)
        }
        Meaning::Predefined(text) => Some(text),
        Meaning::External | Meaning::Nothing => None,
    };
    let result = unescape_with(text, &mut resolve).map_err(walk_refusal)?;
    Ok(Made {
        bytes: result.into_owned().into_bytes(),
        left_out,
        second: 0,
    })
}
