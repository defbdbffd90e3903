//! What every call with a text checks first. The Rust has no such length: refusal 1 is document 01's alone.

use crate::answer::{refusal, Answer};
use crate::arguments::LONGEST_TEXT;

/// Refusals 1 and 5, which every call with a text gives first.
pub fn checked(text: &[u8]) -> Result<&str, Answer> {
    length_checked(text)?;
    std::str::from_utf8(text).map_err(|error| refusal(5, error.valid_up_to() as u64))
}

pub fn length_checked(text: &[u8]) -> Result<(), Answer> {
    match text.len() {
        0..=LONGEST_TEXT => Ok(()),
        length => Err(refusal(1, length as u64)),
    }
}
