//! Rows of the calls on attribute values: values of each kind and of usual lengths, and long ones.

use super::table::{exact_row, ours, table_row, Ours, References, TableRule, Tables, GROWTH};
use crate::arguments::DEEPEST;
use crate::counting::{Row, Side};
use crate::draft::Draft;
use crate::inputs::sizes::MEBIBYTE;
use crate::oracle::entities::walk_refusal;
use crate::rust::escape::EscapeError;
use crate::rust::XmlVersion;
use crate::table::{look_up, Definition, Meaning};
use crate::timing::{self, aligned, letters_with, Made};
use std::hint::black_box;
use std::str::from_utf8;

const DENSE: [&str; 4] = ["\t", "&lt;", "&#65;", "&a;"];
const MULTI_BYTE: [&str; 5] = ["é", "½", "€", "語", "😀"];
const INPUTS: [References; 5] = [
    ("plain", &[], 0),
    ("sparse", &["\t", "&lt;", "\r\n", "&a;"], 100),
    ("dense", &DENSE, 8),
    ("multi-byte", &MULTI_BYTE, 1),
    ("nested entities", &["&n;"], 16),
];
const DEFINITIONS: [(&str, &str); 4] =
    [("a", "first"), ("n", "x&m;y&m;"), ("m", "&o;"), ("o", "z")];
/// With blanks and a stop of 1.1, but no CR: so the Rust's answers are those of the marked list too.
const MARKED: [(&str, &str); 4] = [
    ("n", "x&m;y&m;"),
    ("m", "½&o;"),
    ("o", "z\t"),
    ("b", "a\tb\nc"),
];

/// Under 1.0 and under 1.1, by the names of these rows; and through a marked list under 1.1.
pub fn timed(calls: [&str; 2], sides: (impl Ours, TableRule)) -> Vec<timing::Row> {
    let tables = Tables::new(Draft::of(&DEFINITIONS));
    let mut rows = vec![];
    for (call, version) in calls.into_iter().zip([0, 2]) {
        for size in [64, MEBIBYTE] {
            for (input, pieces, distance) in INPUTS {
                let text = letters_with(pieces, distance, size);
                rows.push(table_row(call, input, &text, version, tables, sides));
            }
        }
    }
    let marked = Tables::new(Draft::of(&MARKED).marked());
    let (input, pieces) = ("entities of a marked list", ["&n;", "&b;"]);
    for size in [64, MEBIBYTE] {
        let text = letters_with(&pieces, 16, size);
        rows.push(table_row(calls[1], input, &text, 2, marked, sides));
    }
    rows
}

/// Long values of each kind under 1.0, in an output just as long as the result.
pub fn exactly_timed(call: &str, sides: (impl Ours, TableRule)) -> Vec<timing::Row> {
    let tables = Tables::new(Draft::of(&DEFINITIONS));
    let row = |(input, pieces, distance): References| {
        let text = letters_with(pieces, distance, MEBIBYTE);
        let input = format!("{input}, exact room").leak();
        exact_row(call, input, &text, 0, tables, sides)
    };
    INPUTS.into_iter().map(row).collect()
}

/// Counts the openings too.
pub fn rust_normalize(
    text: &'static str,
    version: u8,
    definitions: &[Definition<'static>],
) -> Result<Made, EscapeError> {
    let version = match version {
        2 => XmlVersion::Explicit1_1,
        _ => XmlVersion::Explicit1_0,
    };
    let mut openings = 0;
    let resolve = |name: &str| match look_up(definitions, name) {
        Meaning::Defined(text) => {
            openings += 1;
            Some(text)
        }
        Meaning::Predefined(text) => Some(text),
        Meaning::External | Meaning::Nothing => None,
    };
    let depth = DEEPEST as usize;
    let value = version.normalize_attribute_value(text, depth, resolve)?;
    Ok((value, openings))
}

/// And looks at each character of the text, of the table's texts and of the value: all are allowed here.
pub fn rust_normalize_strictly(
    text: &'static str,
    version: u8,
    definitions: &[Definition<'static>],
) -> Result<Made, EscapeError> {
    let (value, openings) = rust_normalize(text, version, definitions)?;
    let mut texts = definitions.iter().filter_map(|definition| definition.text);
    let are_allowed = match version {
        2 => {
            text.chars()
                .all(|one| is_char_of_1_1(one) && !is_restricted(one))
                && texts.all(|text| text.chars().all(is_char_of_1_1))
                && value.chars().all(is_char_of_1_1)
        }
        _ => {
            text.chars().all(is_char_of_1_0)
                && texts.all(|text| text.chars().all(is_char_of_1_0))
                && value.chars().all(is_char_of_1_0)
        }
    };
    assert!(black_box(are_allowed));
    Ok((value, openings))
}

fn is_char_of_1_0(character: char) -> bool {
    matches!(character, '\t' | '\n' | '\r' | ' '..='\u{FFFD}' | '\u{10000}'..)
}

fn is_char_of_1_1(character: char) -> bool {
    matches!(character, '\u{1}'..='\u{FFFD}' | '\u{10000}'..)
}

/// RestrictedChar of XML 1.1.
fn is_restricted(character: char) -> bool {
    character.is_control() && !matches!(character, '\0' | '\t' | '\n' | '\r' | '\u{85}')
}

/// What the second call takes beside the first for each KiB of letters.
pub fn difference(
    what: &'static str,
    version: u8,
    (first, second): ((impl Ours, TableRule), (impl Ours, TableRule)),
) -> timing::Difference {
    let tables = Tables::new(Draft::of(&[]));
    let text = letters_with(&[], 0, MEBIBYTE);
    timing::Difference {
        what,
        times: MEBIBYTE / 1024,
        without: table_row("", "plain", &text, version, tables, first),
        with: table_row("", "plain", &text, version, tables, second),
    }
}

pub fn short_values(
    rows: &mut Vec<Row>,
    call: &str,
    version: u8,
    size: usize,
    sides: (impl Ours, TableRule),
) {
    let inputs = [
        ("plain", letters_with(&[], 0, size)),
        ("one TAB", letters_and(&[(size / 2, "\t")], size)),
        (
            "TAB and `&lt;`",
            letters_and(&[(size / 4, "\t"), (size / 2, "&lt;")], size),
        ),
        ("one entity", letters_and(&[(size / 4, "&a;")], size)),
        ("dense", letters_with(&DENSE, 8, size)),
        ("multi-byte", letters_with(&MULTI_BYTE, 1, size)),
        (
            "nested entities",
            letters_with(&["&n;"], size.min(16), size),
        ),
    ];
    for (input, text) in inputs {
        rows.push(value_row(call, input, &text, version, Room::Ample, sides));
    }
}

/// Letters, with pieces in the place of some.
fn letters_and(pieces: &[(usize, &str)], size: usize) -> Vec<u8> {
    let mut text = letters_with(&[], 0, size);
    for (at, piece) in pieces {
        text[*at..at + piece.len()].copy_from_slice(piece.as_bytes());
    }
    text
}

pub fn long_values(rows: &mut Vec<Row>, call: &str, version: u8, sides: (impl Ours, TableRule)) {
    for (input, pieces, distance) in INPUTS {
        let text = letters_with(pieces, distance, MEBIBYTE);
        rows.push(value_row(call, input, &text, version, Room::Ample, sides));
    }
}

/// Long values of each kind under 1.0, in an output just as long as the result.
pub fn exact_values(rows: &mut Vec<Row>, call: &str, sides: (impl Ours, TableRule)) {
    for (input, pieces, distance) in INPUTS {
        let text = letters_with(pieces, distance, MEBIBYTE);
        let input = format!("{input}, exact room");
        rows.push(value_row(call, &input, &text, 0, Room::Exact, sides));
    }
}

/// How long the output is: longer than any result, or just as long as it.
enum Room {
    Ample,
    Exact,
}

/// A text that names nothing of the table has none.
fn value_row(
    call: &str,
    input: &str,
    text: &[u8],
    version: u8,
    room: Room,
    (run, rule): (impl Ours, TableRule),
) -> Row {
    let names_one = text.windows(3).any(|part| part == b"&a;" || part == b"&n;");
    let definitions = if names_one { &DEFINITIONS[..] } else { &[] };
    let tables = Tables::new(Draft::of(definitions));
    let (text, read) = (aligned(text), tables.read);
    let room = match room {
        Room::Ample => GROWTH * text.len(),
        Room::Exact => {
            let (value, _) = rule(from_utf8(text).unwrap(), version, read).unwrap();
            value.len()
        }
    };
    Row {
        call: call.to_string(),
        input: input.to_string(),
        bytes: text.len(),
        runs_before: if text.len() < MEBIBYTE { 20 } else { 1 },
        ours: Box::new(ours(run, text, version, tables.lent, room)),
        rust: rust(rule, text, version, room, move || read),
    }
}

/// The Rust's side does what our call does: the text is checked, the result is copied to the caller's buffer if it fits.
pub fn rust<D: AsRef<[Definition<'static>]>>(
    rule: TableRule,
    text: &'static [u8],
    version: u8,
    room: usize,
    read: impl Fn() -> D + 'static,
) -> Side {
    let out = vec![0; room].leak();
    Box::new(move |words| {
        let text = from_utf8(black_box(text)).unwrap();
        let made = rule(text, version, read().as_ref());
        let (number, answer) = match made {
            Ok((value, openings)) if value.len() <= out.len() => {
                out[..value.len()].copy_from_slice(value.as_bytes());
                black_box(&out);
                (0, [value.len() as u64, openings])
            }
            Ok((value, _)) => (19, [value.len() as u64, 0]),
            Err(error) => {
                let answer = walk_refusal(error);
                (answer.number, [answer.first, answer.second])
            }
        };
        *words = answer;
        number
    })
}
