//! Wrong libraries for every call.

use crate::call::Faults;
use crate::lent::{Lent, Run};

pub const ANSWER: Faults = &[
    ("the number changed", changed_number),
    ("the first answer word changed", changed_answer::<0>),
    ("the second answer word changed", changed_answer::<8>),
    ("the second answer word not written", unwritten_answer),
    (
        "the byte after the answer words changed",
        changed_answer::<16>,
    ),
    (
        "the byte before the answer words changed",
        changed_answer::<-1>,
    ),
];

unsafe fn changed_number(lent: &Lent, real: Run) -> u32 {
    real(lent) ^ 1
}

unsafe fn changed_answer<const OFFSET: isize>(lent: &Lent, real: Run) -> u32 {
    let number = real(lent);
    *lent.answer.cast::<u8>().offset(OFFSET) ^= 1;
    number
}

unsafe fn unwritten_answer(lent: &Lent, real: Run) -> u32 {
    let second = lent.answer.add(1);
    let before = *second;
    let number = real(lent);
    *second = before;
    number
}
