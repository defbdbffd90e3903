//! The second stage of 3.3.3 (K5) on the value that the Rust's walk gives, and on the documents' own reading; 18 is document 01's.

use crate::answer::{refusal, Answer};
use crate::arguments::{Arguments, LONGEST_OUTPUT, LONGEST_SCRATCH};
use crate::oracle::entities;
use crate::oracle::reading::{self, Rule};
use crate::oracle::result::{finished, in_some_room, Made};

pub fn normalize_nmtokens(arguments: &Arguments) -> Answer {
    staged(arguments, entities::normalized(arguments), split_and_joined)
}

pub fn reading(arguments: &Arguments) -> Answer {
    staged(
        arguments,
        reading::normalized(arguments, Rule::Lenient),
        collapsed,
    )
}

/// Normalizes into the scratch and goes on from there: 18 comes before 19, and with 19 the scratch holds the value.
fn staged(
    arguments: &Arguments,
    value: Result<Made, Answer>,
    stage: fn(&[u8]) -> Vec<u8>,
) -> Answer {
    let value = match value {
        Ok(value) => value,
        Err(refusal) => return in_some_room(arguments, refusal),
    };
    let result = stage(&value.bytes);
    let needed = value.bytes.len();
    let scratch_room = arguments.scratch.length(needed).min(LONGEST_SCRATCH);
    if scratch_room < needed {
        return Answer {
            room: arguments.room.length(result.len()).min(LONGEST_OUTPUT),
            scratch_room,
            ..refusal(18, needed as u64)
        };
    }
    let made = Made {
        bytes: result,
        left_out: 0,
        second: value.second,
    };
    Answer {
        scratch_room,
        scratch: value.bytes,
        ..finished(arguments, Ok(made))
    }
}

/// As a Rust program does it: the parts between spaces that are not empty, one space between each two.
fn split_and_joined(value: &[u8]) -> Vec<u8> {
    let parts = value.split(|&byte| byte == b' ');
    let tokens: Vec<&[u8]> = parts.filter(|part| !part.is_empty()).collect();
    tokens.join(&b' ')
}

/// As document 02 says it: spaces at both ends go, and of each run of spaces all but one.
fn collapsed(value: &[u8]) -> Vec<u8> {
    let mut result = vec![];
    let mut space_is_due = false;
    for &byte in value {
        if byte == 0x20 {
            space_is_due = !result.is_empty();
            continue;
        }
        if std::mem::take(&mut space_is_due) {
            result.push(0x20);
        }
        result.push(byte);
    }
    result
}
