//! The Rust's functions beside ours.

use crate::inputs::sizes::MEBIBYTE;
use crate::rows::text::{given, text_row, TextCall};
use crate::rust::utils;
use crate::timing::{letters_with, Row};

pub fn start(ours: TextCall) -> Vec<Row> {
    let rust = [rust_trim::<START, true>, rust_trim::<START, false>];
    timed("trim_xml_start", ours, rust)
}

pub fn end(ours: TextCall) -> Vec<Row> {
    let rust = [rust_trim::<END, true>, rust_trim::<END, false>];
    timed("trim_xml_end", ours, rust)
}

pub fn spaces(ours: TextCall) -> Vec<Row> {
    let rust = [rust_trim::<SPACES, true>, rust_trim::<SPACES, false>];
    timed("trim_xml_spaces", ours, rust)
}

/// The Rust's side on a text that it checks, and on one that it does not.
fn timed(name: &str, ours: TextCall, [rust, unchecked]: [TextCall; 2]) -> Vec<Row> {
    let mut rows = vec![];
    for size in [64, MEBIBYTE] {
        let letters = letters_with(&[], 0, size);
        let blanks = letters_with(&[" ", "\n", "\t", "\r"], 1, size);
        let around = [&blanks[..32], &letters, &blanks[..32]].concat();
        for (input, text) in [
            ("no blanks", letters),
            ("32 blanks each side", around),
            ("blanks alone", blanks),
        ] {
            rows.push(text_row(name, input, &text, [ours, rust], Some(unchecked)));
        }
    }
    rows
}

const START: u8 = 0;
const END: u8 = 1;
const SPACES: u8 = 2;

unsafe extern "C" fn rust_trim<const WHICH: u8, const CHECKED: bool>(
    text: *const u8,
    length: usize,
    answer: *mut u64,
) -> u32 {
    let text = given::<CHECKED>(text, length);
    let part = match WHICH {
        START => utils::trim_xml_start(text),
        END => utils::trim_xml_end(text),
        _ => utils::trim_xml_spaces(text),
    };
    answer.write((part.as_ptr() as usize - text.as_ptr() as usize) as u64);
    answer.add(1).write(part.len() as u64);
    0
}
