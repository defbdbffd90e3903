//! The Rust's function of each version beside ours.

use crate::oracle::result::Rule;
use crate::rows::output::{output_rows, OutputCall};
use crate::rust::escape;
use crate::timing::Row;

pub fn timed(ours: OutputCall) -> Vec<Row> {
    let version_1_1 = ["\r\n", "\r\u{85}", "\u{85}", "\u{2028}"];
    let others = ["½", "°", "€", "…"];
    let inputs: [(&str, &[&str], usize); 6] = [
        ("no line ends", &[], 0),
        ("sparse CR LF", &["\r\n"], 100),
        ("dense CR", &["\r"], 4),
        ("dense CR LF", &["\r\n"], 4),
        ("dense, of XML 1.1", &version_1_1, 8),
        ("dense C2 and E2, no line ends", &others, 8),
    ];
    let sides = |version: u8| -> (&str, Rule) {
        match version {
            0 => ("normalize_eols, 1.0", escape::normalize_xml10_eols),
            _ => ("normalize_eols, 1.1", escape::normalize_xml11_eols),
        }
    };
    output_rows(&[0, 2], &inputs, ours, sides)
}
