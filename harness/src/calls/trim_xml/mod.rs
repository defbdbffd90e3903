//! `govlezna_trim_xml_start`, `_end` and `_spaces`.

mod faults;
mod inputs;
mod rows;

use crate::answer::{success, Answer};
use crate::call::Call;
use crate::call::Parameter::Text;
use crate::inputs::sizes;
use crate::inputs::woven::{self, Subject};
use crate::lent::Lent;
use crate::oracle::text::checked;
use crate::rust::utils;
use inputs::Trim;

extern "C" {
    fn govlezna_trim_xml_start(text: *const u8, text_length: usize, answer: *mut u64) -> u32;
    fn govlezna_trim_xml_end(text: *const u8, text_length: usize, answer: *mut u64) -> u32;
    fn govlezna_trim_xml_spaces(text: *const u8, text_length: usize, answer: *mut u64) -> u32;
}

unsafe fn run_start(lent: &Lent) -> u32 {
    govlezna_trim_xml_start(lent.text, lent.text_length, lent.answer)
}

unsafe fn run_end(lent: &Lent) -> u32 {
    govlezna_trim_xml_end(lent.text, lent.text_length, lent.answer)
}

unsafe fn run_spaces(lent: &Lent) -> u32 {
    govlezna_trim_xml_spaces(lent.text, lent.text_length, lent.answer)
}

pub const START: Call = Call {
    name: "trim_xml_start",
    run: run_start,
    expected: |given| part(given.text, utils::trim_xml_start, given.text.len()),
    timed: || rows::start(govlezna_trim_xml_start),
    ..SPACES
};

pub const END: Call = Call {
    name: "trim_xml_end",
    run: run_end,
    expected: |given| part(given.text, utils::trim_xml_end, 0),
    timed: || rows::end(govlezna_trim_xml_end),
    ..SPACES
};

pub const SPACES: Call = Call {
    name: "trim_xml_spaces",
    parameters: &[Text],
    run: run_spaces,
    expected: |given| part(given.text, utils::trim_xml_spaces, given.text.len()),
    reading: None,
    misreadings: &[],
    documented: &[],
    seams: woven::seams::<Trim>,
    families: &[
        &[sizes::limits, inputs::long_blanks, inputs::blanks_around],
        Trim::WOVEN,
    ],
    random: woven::random::<Trim>,
    stored: "",
    faults: &[faults::PART],
    timed: || rows::spaces(govlezna_trim_xml_spaces),
    differences: || vec![],
    counted: |_| {},
};

/// Where a part without bytes starts says document 01: nobody owes a meaning to its address.
fn part(text: &[u8], trim: fn(&str) -> &str, empty_start: usize) -> Answer {
    let text = match checked(text) {
        Ok(text) => text,
        Err(refusal) => return refusal,
    };
    let part = trim(text);
    let start = match part {
        "" => empty_start,
        _ => part.as_ptr() as usize - text.as_ptr() as usize,
    };
    Answer {
        second: part.len() as u64,
        ..success(start as u64)
    }
}
