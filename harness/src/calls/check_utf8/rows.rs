//! `from_utf8` beside ours.

use crate::inputs::sizes::MEBIBYTE;
use crate::inputs::text::{text, Mix};
use crate::random::{Random, DEFAULT_SEED};
use crate::rows::text::{text_row, TextCall};
use crate::timing::Row;
use std::str::from_utf8;

pub fn timed(ours: TextCall) -> Vec<Row> {
    let mixes = [
        ("ASCII", Mix::Ascii),
        ("sparse", Mix::Sparse),
        ("dense", Mix::Dense),
        ("multi-byte, 3", Mix::Cjk),
        ("multi-byte, 2 to 4", Mix::Mixed),
    ];
    let sizes = [64, MEBIBYTE].into_iter();
    let inputs = sizes.flat_map(|size| mixes.map(|(name, mix)| (name, mix, size)));
    inputs
        .map(|(name, mix, size)| {
            let text = text(&mut Random::new(DEFAULT_SEED), mix, size);
            text_row("check_utf8", name, &text, [ours, rust_check_utf8], None)
        })
        .collect()
}

/// Behind a pointer `from_utf8` would leave its Result in memory too: two words are no more work.
unsafe extern "C" fn rust_check_utf8(text: *const u8, length: usize, answer: *mut u64) -> u32 {
    let (number, first) = match from_utf8(std::slice::from_raw_parts(text, length)) {
        Ok(text) => (0, text.len()),
        Err(error) => (5, error.valid_up_to()),
    };
    answer.write(first as u64);
    answer.add(1).write(0);
    number
}
