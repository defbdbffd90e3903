//! `govlezna_parse_number`.

mod inputs;
mod rows;

use crate::answer::{success, Answer};
use crate::arguments::Arguments;
use crate::call::Call;
use crate::call::Parameter::Text;
use crate::inputs::sizes::limits;
use crate::lent::Lent;
use crate::oracle::entities::number_refusal;
use crate::oracle::text::checked;
use crate::rust::escape::parse_number;

extern "C" {
    fn govlezna_parse_number(text: *const u8, text_length: usize, answer: *mut u64) -> u32;
}

unsafe fn run(lent: &Lent) -> u32 {
    govlezna_parse_number(lent.text, lent.text_length, lent.answer)
}

pub const CALL: Call = Call {
    name: "parse_number",
    parameters: &[Text],
    run,
    expected: answer,
    reading: None,
    misreadings: &[],
    documented: &[],
    seams: inputs::seams,
    families: &[&[
        limits,
        inputs::long,
        inputs::every_short_text,
        inputs::every_character,
        inputs::every_edge,
        inputs::every_length_and_address,
        inputs::damaged,
    ]],
    random: inputs::random,
    stored: "",
    faults: &[],
    timed: || rows::timed(govlezna_parse_number),
    differences: || vec![],
    counted: |_| {},
};

fn answer(arguments: &Arguments) -> Answer {
    match checked(arguments.text).map(parse_number) {
        Ok(Ok(character)) => success(u64::from(u32::from(character))),
        Ok(Err(error)) => number_refusal(error),
        Err(refusal) => refusal,
    }
}
