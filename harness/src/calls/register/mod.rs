//! `govlezna_register_add`, `govlezna_register_withdraw`, `govlezna_register_count`.

mod answer;
mod collisions;
mod documented;
mod faults;
mod inputs;
mod rows;

use crate::arguments::Family;
use crate::call::Parameter::{Register, RegisterRead, Text};
use crate::call::{Call, Expected};
use crate::documented::Documented;
use crate::inputs::sizes;
use crate::lent::{Lent, Run};

extern "C" {
    fn govlezna_register_add(
        form: *const u8,
        form_length: usize,
        buffer: *mut u8,
        buffer_length: usize,
        used: *mut u64,
        answer: *mut u64,
    ) -> u32;
    fn govlezna_register_withdraw(
        form: *const u8,
        form_length: usize,
        buffer: *mut u8,
        buffer_length: usize,
        used: *mut u64,
        answer: *mut u64,
    ) -> u32;
    fn govlezna_register_count(
        form: *const u8,
        form_length: usize,
        buffer: *const u8,
        buffer_length: usize,
        used: u64,
        answer: *mut u64,
    ) -> u32;
}

unsafe fn run_add(lent: &Lent) -> u32 {
    govlezna_register_add(
        lent.text,
        lent.text_length,
        lent.buffer,
        lent.buffer_length,
        lent.used,
        lent.answer,
    )
}

unsafe fn run_withdraw(lent: &Lent) -> u32 {
    govlezna_register_withdraw(
        lent.text,
        lent.text_length,
        lent.buffer,
        lent.buffer_length,
        lent.used,
        lent.answer,
    )
}

unsafe fn run_count(lent: &Lent) -> u32 {
    govlezna_register_count(
        lent.text,
        lent.text_length,
        lent.buffer,
        lent.buffer_length,
        *lent.used,
        lent.answer,
    )
}

const FAMILIES: &[&[Family]] = &[&[
    sizes::limits,
    inputs::longest,
    inputs::every_small,
    inputs::every_used_length,
    inputs::damaged,
    inputs::every_number_of_forms,
    inputs::sequences,
    collisions::colliding,
]];

/// What the three share.
const fn call(
    name: &'static str,
    run: Run,
    expected: Expected,
    documented: &'static [&'static [Documented]],
) -> Call {
    Call {
        name,
        parameters: &[Text, Register],
        run,
        expected,
        reading: None,
        misreadings: &[],
        documented,
        seams: inputs::seams,
        families: FAMILIES,
        random: inputs::random,
        stored: "",
        faults: &[],
        timed: || vec![],
        differences: || vec![],
        counted: |_| {},
    }
}

pub const ADD: Call = Call {
    stored: "register_add, register_withdraw FORM BUFFER USED = NUMBER FIRST SECOND BUFFER USED",
    faults: &[faults::DAMAGE, faults::ADD],
    // SAFETY: everything that is lent is of the length stated.
    timed: || rows::added(|lent| unsafe { run_add(lent) }),
    ..call("register_add", run_add, answer::add, &[documented::ADD])
};

pub const WITHDRAW: Call = Call {
    faults: &[faults::DAMAGE, faults::WITHDRAW],
    ..call(
        "register_withdraw",
        run_withdraw,
        answer::withdraw,
        &[documented::WITHDRAW],
    )
};

pub const COUNT: Call = Call {
    parameters: &[Text, RegisterRead],
    stored: "register_count FORM BUFFER USED = NUMBER FIRST SECOND",
    faults: &[faults::DAMAGE, faults::COUNT],
    // SAFETY: everything that is lent is of the length stated.
    timed: || rows::counted(|lent| unsafe { run_count(lent) }),
    ..call(
        "register_count",
        run_count,
        answer::count,
        &[documented::COUNT],
    )
};
