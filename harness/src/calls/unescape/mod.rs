//! `govlezna_unescape`.

mod answer;
mod inputs;
mod rows;

use crate::call::Call;
use crate::call::Parameter::{Output, Table, Text};
use crate::calls::c14n::inputs::text_forms_unescaped;
use crate::documented::{marked, row, with, Documented, Outcome, Outcome::Answered, Outcome::Made};
use crate::faults::{external as external_faults, marked as marked_faults, table::LOOKUP};
use crate::inputs::{
    big_tables, entities, external, marked as marked_inputs, sizes, tables, woven,
};
use crate::lent::Lent;
use inputs::Unescape;

extern "C" {
    fn govlezna_unescape(
        text: *const u8,
        text_length: usize,
        list: *const u8,
        list_length: usize,
        pool: *const u8,
        pool_length: usize,
        out: *mut u8,
        out_length: usize,
        answer: *mut u64,
    ) -> u32;
}

unsafe fn run(lent: &Lent) -> u32 {
    govlezna_unescape(
        lent.text,
        lent.text_length,
        lent.list,
        lent.list_length,
        lent.pool,
        lent.pool_length,
        lent.out,
        lent.out_length,
        lent.answer,
    )
}

pub const CALL: Call = Call {
    name: "unescape",
    parameters: &[Text, Table, Output],
    run,
    expected: answer::unescape,
    reading: Some(answer::reading),
    misreadings: &[("of marked lists", marked_faults::UNESCAPE_READINGS)],
    documented: &[DOCUMENTED],
    seams: woven::seams::<Unescape>,
    families: &[&[
        sizes::limits,
        tables::limits,
        entities::text_before_table,
        entities::lookups,
        big_tables::looked_up_often,
        entities::similar_names,
        entities::first_binds,
        external::every_order,
        external::every_small_table,
        marked_inputs::every_small_table,
        entities::repeated,
        inputs::longest_results,
        inputs::escaped_texts,
        |random, sink| text_forms_unescaped(answer::unescape, random, sink),
        entities::damaged_tables,
        entities::every_number,
        woven::long::<Unescape>,
        woven::every_short_text::<Unescape>,
        woven::every_sequence_in_context::<Unescape>,
        woven::every_length_and_address::<Unescape>,
        woven::damaged::<Unescape>,
    ]],
    random: woven::random::<Unescape>,
    stored: "unescape TEXT LIST POOL ROOM = NUMBER FIRST SECOND OUTPUT",
    faults: &[
        LOOKUP,
        external_faults::TABLE,
        external_faults::LOOKUP,
        external_faults::PLACES,
        marked_faults::TABLE,
        marked_faults::LOOKUP,
        marked_faults::UNESCAPE,
    ],
    // SAFETY: everything that is lent is of the length stated.
    timed: || rows::timed(|lent| unsafe { run(lent) }),
    differences: || {
        vec![
            rows::lookup(|lent| unsafe { run(lent) }),
            rows::mixed_lookup(|lent| unsafe { run(lent) }),
        ]
    },
    counted: |all| rows::counted(all, |lent| unsafe { run(lent) }),
};

const DOCUMENTED: &[Documented] = &[
    said("&a&b;", Answered(10, 0, 5)),
    said("&;", Answered(11, 1, 1)),
    said("&#x41;&#65;", Made("AA", 0)),
    said("&#+1;", Answered(12, 0, 0)),
    said("&#X41;", Answered(13, 0, 0)),
    said("&#xD800;", Answered(14, 55_296, 0)),
    said("&#0;", Answered(15, 0, 0)),
    said("&#;", Answered(13, 0, 0)),
    with(&[("amp", Some("X"))], said("&amp;", Made("X", 0))),
    with(&[("amp", None)], said("&amp;", Answered(27, 0, 0))),
    with(&[("lt", None)], said("a&lt;", Answered(27, 1, 0))),
    with(
        &[("e", None), ("e", Some("x"))],
        said("&e;", Answered(27, 0, 0)),
    ),
    with(&[("e", Some("x")), ("e", None)], said("&e;", Made("x", 0))),
    with(
        &[("a", Some("&e;")), ("e", None)],
        said("&a;", Made("&e;", 0)),
    ),
    with(&[("e", None)], said("&e&e;", Answered(10, 0, 5))),
    with(&[("e", None)], said("&f;&e;", Answered(11, 1, 2))),
    marked(
        &[("da", Some("\r\n\t\u{85}½"))],
        said("\r\n&da;", Made("\r\n\r\n\t\u{85}½", 0)),
    ),
    marked(
        &[("e", Some("x")), ("e", None)],
        said("&e;&lt;", Made("x<", 0)),
    ),
    marked(&[("e", None)], said("a&e;", Answered(27, 1, 0))),
    marked(&[], said("&e;", Answered(11, 1, 2))),
];

const fn said(text: &'static str, outcome: Outcome) -> Documented {
    row(text, 0, outcome)
}
