//! `govlezna_cdata_next`.

mod answer;
mod faults;
mod inputs;
mod rows;

use crate::call::{Call, Parameter};
use crate::inputs::{sizes, woven};
use crate::lent::{Cursor, Lent};
use inputs::Cdata;

extern "C" {
    fn govlezna_cdata_next(
        text: *const u8,
        text_length: usize,
        cursor: *mut Cursor,
        answer: *mut u64,
    ) -> u32;
}

unsafe fn run(lent: &Lent) -> u32 {
    govlezna_cdata_next(lent.text, lent.text_length, lent.cursor, lent.answer)
}

pub const CALL: Call = Call {
    name: "cdata_next",
    parameters: &[Parameter::Text, Parameter::Cursor],
    run,
    expected: answer::cdata_next,
    reading: None,
    misreadings: &[],
    documented: &[],
    seams: woven::seams::<Cdata>,
    families: &[&[
        sizes::limits,
        inputs::too_long,
        woven::long::<Cdata>,
        inputs::every_iteration,
        woven::every_short_text::<Cdata>,
        woven::every_sequence_in_context::<Cdata>,
        woven::every_length_and_address::<Cdata>,
        woven::damaged::<Cdata>,
    ]],
    random: woven::random::<Cdata>,
    stored: "cdata_next TEXT OFFSET FINISHED = NUMBER FIRST SECOND OFFSET FINISHED",
    faults: &[faults::CURSOR],
    timed: || rows::timed(next),
    differences: || vec![],
    counted: |_| {},
};

fn next(text: &[u8], cursor: &mut Cursor, words: &mut [u64; 2]) -> u32 {
    // SAFETY: text and words are of the lengths stated.
    unsafe { govlezna_cdata_next(text.as_ptr(), text.len(), cursor, words.as_mut_ptr()) }
}
