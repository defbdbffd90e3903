//! Rows of calls on a text alone.

use crate::timing::{aligned, row, Row};
use std::hint::black_box;
use std::str::{from_utf8, from_utf8_unchecked};

/// A call on a text alone. The Rust's side has this form too, so that one driver runs both.
pub type TextCall = unsafe extern "C" fn(*const u8, usize, *mut u64) -> u32;

pub fn text_row(
    call: &str,
    input: &'static str,
    text: &[u8],
    [ours, rust]: [TextCall; 2],
    unchecked: Option<TextCall>,
) -> Row {
    let text = aligned(text);
    // The compiler cannot see through the pointer, so no side becomes part of the loop around it.
    let side = |call: TextCall| {
        let call = black_box(call);
        // SAFETY: text and words are of the lengths stated.
        move |words: &mut [u64; 2]| unsafe { call(text.as_ptr(), text.len(), words.as_mut_ptr()) }
    };
    row(
        call,
        input,
        text.len(),
        side(ours),
        side(rust),
        unchecked.map(side),
    )
}

/// The text, checked or known to be UTF-8.
pub unsafe fn given<'a, const CHECKED: bool>(text: *const u8, length: usize) -> &'a str {
    let bytes = std::slice::from_raw_parts(text, length);
    match CHECKED {
        true => from_utf8(bytes).unwrap(),
        false => from_utf8_unchecked(bytes),
    }
}
