//! The Rust's writer of attribute values on the value that its walk gives, and the documents' own reading; 18 and the character in hand
//! are document 02's (K7).

use crate::answer::{refusal, Answer};
use crate::arguments::{Arguments, HAND, LONGEST_OUTPUT};
use crate::oracle::entities;
use crate::oracle::reading::{self, Rule};
use crate::oracle::result::{finished, in_some_room, Made};
use crate::rust::escape;

pub fn canonical_form(arguments: &Arguments) -> Answer {
    formed(arguments, entities::normalized(arguments), canonical)
}

pub fn reading(arguments: &Arguments) -> Answer {
    formed(
        arguments,
        reading::normalized(arguments, Rule::Lenient),
        reading::canonical,
    )
}

pub fn strict_canonical_form(arguments: &Arguments) -> Answer {
    formed(
        arguments,
        entities::strictly_normalized(arguments),
        canonical,
    )
}

pub fn strict_reading(arguments: &Arguments) -> Answer {
    formed(
        arguments,
        reading::normalized(arguments, Rule::Strict),
        reading::canonical,
    )
}

/// 18 comes after the refusals of the walk and before 19, for an empty value too. A refusal leaves the scratch, and so does an empty value.
fn formed(
    arguments: &Arguments,
    value: Result<Made, Answer>,
    write: fn(&[u8], u8) -> Vec<u8>,
) -> Answer {
    let scratch_room = arguments.scratch.length(HAND);
    let value = match value {
        Ok(value) => value,
        Err(refusal) => {
            return Answer {
                scratch_room,
                ..in_some_room(arguments, refusal)
            }
        }
    };
    let form = write(&value.bytes, arguments.choice);
    if scratch_room < HAND {
        return Answer {
            room: arguments.room.length(form.len()).min(LONGEST_OUTPUT),
            scratch_room,
            ..refusal(18, HAND as u64)
        };
    }
    let made = Made {
        bytes: form,
        left_out: 0,
        second: value.second,
    };
    let answer = finished(arguments, Ok(made));
    let scratch = match answer.number {
        0 => in_hand(&value.bytes),
        _ => vec![],
    };
    Answer {
        scratch_room,
        scratch,
        ..answer
    }
}

/// The last character of the value, filled up with zero bytes.
pub fn in_hand(value: &[u8]) -> Vec<u8> {
    let value = std::str::from_utf8(value).expect("values are UTF-8");
    let Some(last) = value.chars().next_back() else {
        return vec![];
    };
    let mut hand = [0; HAND];
    last.encode_utf8(&mut hand);
    hand.to_vec()
}

/// The Rust's writer for attributes; what 1.1 needs beside it is document 01's.
fn canonical(value: &[u8], version: u8) -> Vec<u8> {
    let value = std::str::from_utf8(value).expect("the Rust makes UTF-8");
    let mut form = escape::escape_attribute(value).into_owned();
    if version == 2 {
        form = form
            .replace('\u{85}', "&#133;")
            .replace('\u{2028}', "&#8232;");
    }
    form.into_bytes()
}
