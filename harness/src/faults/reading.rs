//! Wrong readings of the documents: the comparison with the Rust has to catch each.

use crate::answer::Answer;
use crate::arguments::Arguments;
use crate::call::{Call, Expected, Misreading, Parameter};

const ANY: &[(&str, Misreading)] = &[
    ("the second word of a success one more", more_second),
    ("`&apos;` unknown", unknown_apos),
    ("`x` in upper case taken", upper_x),
];

/// Of calls that say where the text is refused.
const PLACES: &[(&str, Misreading)] =
    &[("10 at the name", later_10), ("11 at the `&`", earlier_11)];

const WRITERS: &[(&str, Misreading)] = &[("the result's last byte changed", changed_result)];

const WALKS: &[(&str, Misreading)] = &[
    ("limit one more", higher_limit),
    ("version 1 taken for 1.1", version_1_as_1_1),
];

const DEPTHS: &[(&str, Misreading)] = &[("depth one less", less_depth)];

/// Those of a call whose text is read by the documents too.
pub fn of(call: &Call) -> impl Iterator<Item = &'static (&'static str, Misreading)> {
    let of = |parameter, misreadings: &'static [_]| match call.has(parameter) {
        true => misreadings,
        false => &[],
    };
    let places = match call.has(Parameter::Report) {
        true => &[],
        false => PLACES,
    };
    ANY.iter()
        .chain(places)
        .chain(of(Parameter::Output, WRITERS))
        .chain(of(Parameter::Limit, WALKS))
        .chain(of(Parameter::Depth, DEPTHS))
}

fn more_second(arguments: &Arguments, real: Expected) -> Answer {
    let mut answer = real(arguments);
    answer.second += u64::from(answer.number == 0);
    answer
}

fn changed_result(arguments: &Arguments, real: Expected) -> Answer {
    let mut answer = real(arguments);
    if let Some(last) = answer.written.last_mut() {
        *last ^= 1;
    }
    answer
}

fn later_10(arguments: &Arguments, real: Expected) -> Answer {
    let mut answer = real(arguments);
    answer.first += u64::from(answer.number == 10);
    answer
}

fn earlier_11(arguments: &Arguments, real: Expected) -> Answer {
    let mut answer = real(arguments);
    answer.first -= u64::from(answer.number == 11);
    answer
}

fn unknown_apos(arguments: &Arguments, real: Expected) -> Answer {
    replaced(arguments, real, b"&apos;", b"&aqos;")
}

fn upper_x(arguments: &Arguments, real: Expected) -> Answer {
    replaced(arguments, real, b"&#X41;", b"&#x41;")
}

/// With other bytes in the place of these, as many.
fn replaced(arguments: &Arguments, real: Expected, these: &[u8; 6], others: &[u8; 6]) -> Answer {
    let mut text = arguments.text.to_vec();
    for at in 0..text.len().saturating_sub(these.len() - 1) {
        if text[at..].starts_with(these) {
            text[at..at + others.len()].copy_from_slice(others);
        }
    }
    real(&Arguments {
        text: &text,
        ..*arguments
    })
}

fn less_depth(arguments: &Arguments, real: Expected) -> Answer {
    real(&Arguments {
        depth: arguments.depth.saturating_sub(1),
        ..*arguments
    })
}

fn higher_limit(arguments: &Arguments, real: Expected) -> Answer {
    real(&Arguments {
        limit: arguments.limit.saturating_add(1),
        ..*arguments
    })
}

fn version_1_as_1_1(arguments: &Arguments, real: Expected) -> Answer {
    let choice = match arguments.choice {
        1 => 2,
        choice => choice,
    };
    real(&Arguments {
        choice,
        ..*arguments
    })
}
