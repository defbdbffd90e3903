//! `govlezna_c14n_attribute` and `govlezna_c14n_text` (K1).

mod answer;
mod faults;
pub mod inputs;
mod rows;

use crate::call::Call;
use crate::call::Parameter::{Output, Text};
use crate::documented::{row, Outcome::Made};
use crate::inputs::sizes;
use crate::inputs::woven::{self, Subject};
use crate::lent::{Lent, Run};
use crate::rust::escape;
use inputs::C14n;

/// Declares a call as C does, and gives it the form that all calls share.
macro_rules! declare {
    ($call:ident, $run:ident) => {
        extern "C" {
            fn $call(
                text: *const u8,
                text_length: usize,
                out: *mut u8,
                out_length: usize,
                answer: *mut u64,
            ) -> u32;
        }

        unsafe fn $run(lent: &Lent) -> u32 {
            $call(
                lent.text,
                lent.text_length,
                lent.out,
                lent.out_length,
                lent.answer,
            )
        }
    };
}

declare!(govlezna_c14n_attribute, run_attribute);
declare!(govlezna_c14n_text, run_text);

pub const ATTRIBUTE: Call = Call {
    name: "c14n_attribute",
    parameters: &[Text, Output],
    run: run_attribute,
    expected: answer::attribute,
    reading: None,
    misreadings: &[],
    documented: &[&[
        row("&<\"\t\n\r", 0, Made("&amp;&lt;&quot;&#x9;&#xA;&#xD;", 0)),
        row(">' ", 0, Made(">' ", 0)),
    ]],
    seams: woven::seams::<C14n>,
    families: &[&[sizes::limits, inputs::longest_results], C14n::WOVEN],
    random: woven::random::<C14n>,
    stored: "c14n_attribute TEXT ROOM = NUMBER FIRST SECOND OUTPUT, and so for c14n_text",
    faults: &[faults::WRITER, &[("written as text", as_text)]],
    timed: || {
        // SAFETY: everything that is lent is of the length stated.
        rows::timed(
            "c14n_attribute",
            |lent| unsafe { run_attribute(lent) },
            |text| escape::with_the_bytes_of_c14n_attribute(text),
        )
    },
    differences: || vec![],
    counted: |_| {},
};

pub const TEXT: Call = Call {
    name: "c14n_text",
    run: run_text,
    expected: answer::text,
    documented: &[&[
        row("&<>\r", 0, Made("&amp;&lt;&gt;&#xD;", 0)),
        row("\t\n\"'", 0, Made("\t\n\"'", 0)),
    ]],
    stored: "",
    faults: &[faults::WRITER, &[("written as an attribute", as_attribute)]],
    timed: || {
        // SAFETY: everything that is lent is of the length stated.
        rows::timed(
            "c14n_text",
            |lent| unsafe { run_text(lent) },
            |text| escape::with_the_bytes_of_c14n_text(text),
        )
    },
    ..ATTRIBUTE
};

unsafe fn as_text(lent: &Lent, _: Run) -> u32 {
    run_text(lent)
}

unsafe fn as_attribute(lent: &Lent, _: Run) -> u32 {
    run_attribute(lent)
}
