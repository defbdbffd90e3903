//! Wrong libraries for the trims.

use crate::call::Faults;
use crate::lent::{Lent, Run};

pub const PART: Faults = &[
    ("blanks alone start at the other end", turned_blanks),
    ("no-break spaces trimmed", trimmed_no_break_spaces),
];

unsafe fn turned_blanks(lent: &Lent, real: Run) -> u32 {
    let number = real(lent);
    if number == 0 && *lent.answer.add(1) == 0 {
        *lent.answer = lent.text_length as u64 - *lent.answer;
    }
    number
}

/// Of a text that has nothing else, which is enough to be caught.
unsafe fn trimmed_no_break_spaces(lent: &Lent, real: Run) -> u32 {
    let number = real(lent);
    let has_one = lent.text_length == 2 && *lent.text.cast::<[u8; 2]>() == [0xC2, 0xA0];
    if number == 0 && has_one {
        *lent.answer.add(1) = 0;
    }
    number
}
