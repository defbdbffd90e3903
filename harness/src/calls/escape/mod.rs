//! `govlezna_escape`.

pub mod answer;
mod inputs;
mod rows;

use crate::call::Call;
use crate::call::Parameter::{Choice, Output, Text};
use crate::documented::{row, Outcome::Made};
use crate::inputs::woven::{self, Subject};
use crate::inputs::{rooms, sizes};
use crate::lent::Lent;
use inputs::Escape;

extern "C" {
    fn govlezna_escape(
        text: *const u8,
        text_length: usize,
        level: u8,
        out: *mut u8,
        out_length: usize,
        answer: *mut u64,
    ) -> u32;
}

unsafe fn run(lent: &Lent) -> u32 {
    govlezna_escape(
        lent.text,
        lent.text_length,
        lent.choice,
        lent.out,
        lent.out_length,
        lent.answer,
    )
}

pub const CALL: Call = Call {
    name: "escape",
    parameters: &[Text, Choice, Output],
    run,
    expected: answer::escape,
    reading: None,
    misreadings: &[],
    documented: &[&[
        row("a<b\t", 3, Made("a&lt;b&#9;", 0)),
        row(">'", 2, Made(">'", 0)),
    ]],
    seams: woven::seams::<Escape>,
    families: &[
        &[
            sizes::limits,
            inputs::longest_result,
            rooms::unknown_choices,
        ],
        Escape::WOVEN,
    ],
    random: woven::random::<Escape>,
    stored: "escape TEXT LEVEL ROOM = NUMBER FIRST SECOND OUTPUT",
    faults: &[],
    timed: || rows::timed(govlezna_escape),
    differences: || vec![],
    counted: |_| {},
};
