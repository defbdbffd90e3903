//! A result in the room that there is for it. The Rust has no output: 19 is document 01's.

use super::text::{checked, length_checked};
use crate::answer::{refusal, success, Answer};
use crate::arguments::{Arguments, LONGEST_OUTPUT};
use std::borrow::Cow;

/// What the Rust makes of a text at a level or under a version.
pub type Rule = fn(&str) -> Cow<str>;

/// The Rust takes no byte for a level or version: 4 is document 01's.
pub fn written(arguments: &Arguments, rule: Option<Rule>) -> Answer {
    let text = match rule {
        None => length_checked(arguments.text).and(Err(refusal(4, 0))),
        Some(rule) => checked(arguments.text).map(rule),
    };
    let made = text.map(|text| Made {
        bytes: text.into_owned().into_bytes(),
        left_out: 0,
        second: 0,
    });
    finished(arguments, made)
}

/// A result.
pub struct Made {
    pub bytes: Vec<u8>,
    /// How many bytes it has beyond these, of a result that is longer than any output.
    pub left_out: usize,
    /// The second answer word of a success.
    pub second: u64,
}

/// What is made, or 19.
pub fn finished(arguments: &Arguments, made: Result<Made, Answer>) -> Answer {
    let made = match made {
        Ok(made) => made,
        Err(refusal) => return in_some_room(arguments, refusal),
    };
    let needed = made.bytes.len() + made.left_out;
    let room = arguments.room.length(needed).min(LONGEST_OUTPUT);
    match room < needed {
        true => Answer {
            room,
            ..refusal(19, needed as u64)
        },
        false => Answer {
            room,
            second: made.second,
            written: made.bytes,
            ..success(needed as u64)
        },
    }
}

/// There is no result whose length could be asked for: the text's, but not of gigabytes.
pub fn in_some_room(arguments: &Arguments, refusal: Answer) -> Answer {
    const MOST: usize = 4096;
    let length = arguments.text.len().min(MOST);
    Answer {
        room: arguments.room.length(length),
        scratch_room: arguments.scratch.length(length),
        ..refusal
    }
}
