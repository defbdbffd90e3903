//! `govlezna_normalize_eols`.

mod inputs;
mod rows;

use crate::answer::Answer;
use crate::arguments::Arguments;
use crate::call::Call;
use crate::call::Parameter::{Choice, Output, Text};
use crate::calls::c14n::inputs::text_forms_by_lines;
use crate::documented::{row, Outcome::Made};
use crate::inputs::woven::{self, Subject};
use crate::inputs::{rooms, sizes};
use crate::lent::Lent;
use crate::oracle::result::{written, Rule};
use crate::rust::escape;
use inputs::Eols;

extern "C" {
    fn govlezna_normalize_eols(
        text: *const u8,
        text_length: usize,
        version: u8,
        out: *mut u8,
        out_length: usize,
        answer: *mut u64,
    ) -> u32;
}

unsafe fn run(lent: &Lent) -> u32 {
    govlezna_normalize_eols(
        lent.text,
        lent.text_length,
        lent.choice,
        lent.out,
        lent.out_length,
        lent.answer,
    )
}

pub const CALL: Call = Call {
    name: "normalize_eols",
    parameters: &[Text, Choice, Output],
    run,
    expected: answer,
    reading: None,
    misreadings: &[],
    documented: &[&[
        row("\r\r\n", 0, Made("\n\n", 0)),
        row("\r\u{85}", 2, Made("\n", 0)),
    ]],
    seams: woven::seams::<Eols>,
    families: &[
        &[sizes::limits, rooms::unknown_choices],
        Eols::WOVEN,
        &[|random, sink| text_forms_by_lines(answer, random, sink)],
    ],
    random: woven::random::<Eols>,
    stored: "normalize_eols TEXT VERSION ROOM = NUMBER FIRST SECOND OUTPUT",
    faults: &[],
    timed: || rows::timed(govlezna_normalize_eols),
    differences: || vec![],
    counted: |_| {},
};

fn answer(arguments: &Arguments) -> Answer {
    let rule: Option<Rule> = match arguments.choice {
        0 | 1 => Some(escape::normalize_xml10_eols),
        2 => Some(escape::normalize_xml11_eols),
        _ => None,
    };
    written(arguments, rule)
}
