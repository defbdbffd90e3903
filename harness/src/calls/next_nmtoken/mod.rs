//! `govlezna_next_nmtoken` (K5).

mod answer;
mod faults;
mod inputs;
mod rows;

use crate::call::{Call, Parameter};
use crate::inputs::{sizes, woven};
use crate::lent::Lent;
use inputs::Token;

extern "C" {
    fn govlezna_next_nmtoken(
        text: *const u8,
        text_length: usize,
        offset: *mut u64,
        answer: *mut u64,
    ) -> u32;
}

unsafe fn run(lent: &Lent) -> u32 {
    govlezna_next_nmtoken(lent.text, lent.text_length, lent.offset, lent.answer)
}

pub const CALL: Call = Call {
    name: "next_nmtoken",
    parameters: &[Parameter::Text, Parameter::Offset],
    run,
    expected: answer::next_nmtoken,
    reading: None,
    misreadings: &[],
    documented: &[],
    seams: woven::seams::<Token>,
    families: &[&[
        sizes::limits,
        inputs::too_long,
        woven::long::<Token>,
        inputs::every_iteration,
        woven::every_short_text::<Token>,
        woven::every_sequence_in_context::<Token>,
        woven::every_length_and_address::<Token>,
        woven::damaged::<Token>,
    ]],
    random: woven::random::<Token>,
    stored: "next_nmtoken TEXT OFFSET = NUMBER FIRST SECOND OFFSET",
    faults: &[faults::OFFSET],
    timed: || rows::timed(next),
    differences: || vec![],
    counted: |_| {},
};

fn next(text: &[u8], offset: &mut u64, words: &mut [u64; 2]) -> u32 {
    // SAFETY: text and words are of the lengths stated.
    unsafe { govlezna_next_nmtoken(text.as_ptr(), text.len(), offset, words.as_mut_ptr()) }
}
