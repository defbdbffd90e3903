//! `govlezna_check_utf8`.

mod inputs;
mod rows;

use crate::answer::{success, Answer};
use crate::arguments::Arguments;
use crate::call::Call;
use crate::call::Parameter::Text;
use crate::inputs::sizes::limits;
use crate::lent::Lent;
use crate::oracle::text::checked;

extern "C" {
    fn govlezna_check_utf8(text: *const u8, text_length: usize, answer: *mut u64) -> u32;
}

unsafe fn run(lent: &Lent) -> u32 {
    govlezna_check_utf8(lent.text, lent.text_length, lent.answer)
}

pub const CALL: Call = Call {
    name: "check_utf8",
    parameters: &[Text],
    run,
    expected: answer,
    reading: None,
    misreadings: &[],
    documented: &[],
    seams: inputs::seams,
    families: &[&[
        limits,
        inputs::long,
        inputs::every_short_text,
        inputs::every_character,
        inputs::every_sequence_in_context,
        inputs::every_length_and_address,
        inputs::damaged,
    ]],
    random: inputs::random,
    stored: "check_utf8 TEXT = NUMBER FIRST SECOND, and so for parse_number and the three trims",
    faults: &[],
    timed: || rows::timed(govlezna_check_utf8),
    differences: || vec![],
    counted: |_| {},
};

fn answer(arguments: &Arguments) -> Answer {
    match checked(arguments.text) {
        Ok(text) => success(text.len() as u64),
        Err(refusal) => refusal,
    }
}
