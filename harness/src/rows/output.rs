//! Rows of calls on a text and a level or a version, with an output.

use crate::inputs::sizes::MEBIBYTE;
use crate::oracle::result::Rule;
use crate::timing::{aligned, letters_with, writing_row, Row};
use std::hint::black_box;

pub type OutputCall = unsafe extern "C" fn(*const u8, usize, u8, *mut u8, usize, *mut u64) -> u32;

/// Each choice on each input: pieces, and the distance from one to the next.
pub fn output_rows(
    choices: &[u8],
    inputs: &[(&'static str, &[&str], usize)],
    ours: OutputCall,
    rust: fn(u8) -> (&'static str, Rule),
) -> Vec<Row> {
    let mut rows = vec![];
    for &choice in choices {
        for size in [64, MEBIBYTE] {
            for &(name, pieces, distance) in inputs {
                let text = aligned(&letters_with(pieces, distance, size));
                let (call, rule) = rust(choice);
                rows.push(output_row(call, name, text, choice, ours, rule));
            }
        }
    }
    rows
}

fn output_row(
    call: &str,
    input: &'static str,
    text: &'static [u8],
    choice: u8,
    ours: OutputCall,
    rule: Rule,
) -> Row {
    let (ours, rule) = (black_box(ours), black_box(rule));
    let out = vec![0; 6 * text.len()].leak();
    let ours = move |words: &mut [u64; 2]| {
        let (length, out_length) = (text.len(), out.len());
        let (out, words) = (out.as_mut_ptr(), words.as_mut_ptr());
        // SAFETY: text, output and words are of the lengths stated.
        unsafe { ours(text.as_ptr(), length, choice, out, out_length, words) }
    };
    writing_row(call, input, text, ours, move |text| (rule(text), 0))
}
