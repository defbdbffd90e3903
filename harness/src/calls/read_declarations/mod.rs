//! `govlezna_read_declarations`.

mod answer;
mod documented;
mod expat;
mod faults;
mod inputs;
mod reading;
mod rows;

use crate::call::Call;
use crate::call::Parameter::{Choice, NewTable, Text};
use crate::inputs::rooms::unknown_choices;
use crate::inputs::sizes::limits;
use crate::lent::Lent;

extern "C" {
    fn govlezna_read_declarations(
        text: *const u8,
        text_length: usize,
        version: u8,
        list: *mut u8,
        list_length: usize,
        pool: *mut u8,
        pool_length: usize,
        answer: *mut u64,
    ) -> u32;
}

unsafe fn run(lent: &Lent) -> u32 {
    govlezna_read_declarations(
        lent.text,
        lent.text_length,
        lent.choice,
        lent.new_list,
        lent.new_list_length,
        lent.new_pool,
        lent.new_pool_length,
        lent.answer,
    )
}

pub const CALL: Call = Call {
    name: "read_declarations",
    parameters: &[Text, Choice, NewTable],
    run,
    expected: answer::answer,
    reading: None,
    misreadings: &[],
    documented: &[documented::ROWS],
    seams: inputs::seams,
    families: &[&[
        limits,
        unknown_choices,
        inputs::every_room,
        inputs::every_length,
        inputs::longest,
        inputs::every_line_end,
        inputs::every_short_text,
        inputs::every_short_value,
        inputs::damaged,
        inputs::every_character,
    ]],
    random: inputs::random,
    stored: "read_declarations TEXT VERSION ROOM ROOM = NUMBER FIRST SECOND LIST POOL, with the lengths of list and pool as rooms",
    faults: &[faults::FAULTS],
    // SAFETY: everything that is lent is of the length stated.
    timed: || rows::timed(|lent| unsafe { run(lent) }),
    differences: || vec![],
    counted: |_| {},
};
