//! Wrong libraries for the writers of Canonical XML.

use crate::call::Faults;
use crate::lent::{Lent, Run};

pub const WRITER: Faults = &[
    ("CR by a decimal number", decimal_cr),
    ("a digit in lower case", lower_case),
];

unsafe fn decimal_cr(lent: &Lent, real: Run) -> u32 {
    let number = real(lent);
    replace(lent, number, b"&#xD;", b"&#13;");
    number
}

unsafe fn lower_case(lent: &Lent, real: Run) -> u32 {
    let number = real(lent);
    replace(lent, number, b"&#xD;", b"&#xd;");
    number
}

/// In what was written.
unsafe fn replace(lent: &Lent, number: u32, right: &[u8; 5], wrong: &[u8; 5]) {
    if number != 0 || lent.out.is_null() {
        return;
    }
    let written = std::slice::from_raw_parts_mut(lent.out, *lent.answer as usize);
    let mut at = 0;
    while at + right.len() <= written.len() {
        if written[at..].starts_with(right) {
            written[at..at + wrong.len()].copy_from_slice(wrong);
        }
        at += 1;
    }
}
