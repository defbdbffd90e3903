//! `govlezna_rehearse` (K11).

mod answer;
mod documented;
mod faults;
mod inputs;
mod rows;

use crate::call::Call;
use crate::call::Parameter::{Choice, Depth, Limit, Report, Spans, Table, Text};
use crate::calls::normalize_attribute_value::run as normalize;
use crate::faults::{external, marked, table::LOOKUP, walk};
use crate::lent::{Lent, Span};

extern "C" {
    fn govlezna_rehearse(
        text: *const u8,
        text_length: usize,
        spans: *const Span,
        span_count: usize,
        version: u8,
        depth: u64,
        limit: u64,
        list: *const u8,
        list_length: usize,
        pool: *const u8,
        pool_length: usize,
        report: *mut u64,
        answer: *mut u64,
    ) -> u32;
}

unsafe fn run(lent: &Lent) -> u32 {
    govlezna_rehearse(
        lent.text,
        lent.text_length,
        lent.spans,
        lent.span_count,
        lent.choice,
        lent.depth,
        lent.limit,
        lent.list,
        lent.list_length,
        lent.pool,
        lent.pool_length,
        lent.report,
        lent.answer,
    )
}

pub const CALL: Call = Call {
    name: "rehearse",
    parameters: &[Text, Spans, Choice, Depth, Limit, Table, Report],
    run,
    expected: answer::answer,
    reading: Some(answer::reading),
    misreadings: &[("of jobs", faults::READINGS)],
    documented: &[documented::ROWS],
    seams: inputs::seams,
    // Short ones first: a wrong library is caught by the first that tells.
    families: &[
        &[
            inputs::far_spans,
            inputs::every_part,
            inputs::limits_of_each,
            inputs::every_short_job,
            inputs::many_spans,
        ],
        &[
            inputs::choices,
            inputs::settings,
            inputs::long_texts,
            inputs::text_limits,
            inputs::table_limits,
            inputs::external_orders,
            inputs::text_before_table,
            inputs::first_binds,
            inputs::similar_names,
            inputs::damaged_tables,
            inputs::marked_texts,
            inputs::replacements,
            inputs::external_tables,
            inputs::marked_tables,
            inputs::repeated,
            inputs::kept,
            inputs::lookups,
            inputs::nested,
            inputs::wide,
            inputs::most_openings,
        ],
        &[inputs::long_jobs],
    ],
    random: inputs::random,
    stored: "rehearse TEXT COUNT START LENGTH .. VERSION DEPTH LIMIT LIST POOL = NUMBER FIRST SECOND REPORT, with - for a report that is left",
    faults: &[
        faults::VALUES,
        faults::OUTSIDE,
        LOOKUP,
        walk::DEPTH,
        walk::REFERENCES,
        external::TABLE,
        external::LOOKUP,
        marked::TABLE,
        marked::LOOKUP,
        marked::WALK,
    ],
    // SAFETY: everything that is lent is of the length stated.
    timed: || {
        rows::timed(
            |lent| unsafe { run(lent) },
            |lent| unsafe { normalize(lent) },
        )
    },
    differences: || vec![],
    counted: |_| (),
};
