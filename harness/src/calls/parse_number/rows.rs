//! The Rust's function beside ours.

use crate::inputs::number::{written_to_length, Form};
use crate::inputs::sizes::MEBIBYTE;
use crate::oracle::entities::number_refusal;
use crate::rows::text::{given, text_row, TextCall};
use crate::rust::escape;
use crate::timing::Row;

pub fn timed(ours: TextCall) -> Vec<Row> {
    let inputs = [
        ("decimal", Form::Decimal, 0),
        ("hexadecimal", Form::UpperHexadecimal, 0),
        ("decimal after zeros", Form::Decimal, 64),
        ("hexadecimal after zeros", Form::UpperHexadecimal, 64),
        ("decimal after zeros", Form::Decimal, MEBIBYTE),
        ("hexadecimal after zeros", Form::UpperHexadecimal, MEBIBYTE),
    ];
    inputs
        .into_iter()
        .map(|(name, form, length)| {
            let text = written_to_length(0x20AC, form, length);
            let sides = [ours, rust_parse_number::<true>];
            let unchecked: TextCall = rust_parse_number::<false>;
            text_row("parse_number", name, &text, sides, Some(unchecked))
        })
        .collect()
}

/// Our call checks its text, so the Rust's side does too; the figure without it is shown as well.
unsafe extern "C" fn rust_parse_number<const CHECKED: bool>(
    text: *const u8,
    length: usize,
    answer: *mut u64,
) -> u32 {
    let (number, first) = match escape::parse_number(given::<CHECKED>(text, length)) {
        Ok(character) => (0, u64::from(u32::from(character))),
        Err(error) => {
            let answer = number_refusal(error);
            (answer.number, answer.first)
        }
    };
    answer.write(first);
    answer.add(1).write(0);
    number
}
