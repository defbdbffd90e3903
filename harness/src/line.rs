//! A line of the stored results: what a call is handed, and what it answers.

use crate::answer::Answer;
use crate::arguments::Arguments;
use crate::call::{Call, Parameter};
use crate::hex::hex;
use crate::lent::{Cursor, Span};
use crate::register::{Held, Left};

/// Inputs with more bytes to read or to write are left out, so that every line is short.
const LONGEST: usize = 300;
const LONGEST_OUTPUT: usize = 700;
/// The buffers of crates/replay have so many bytes.
const LONGEST_REPLAYED: usize = 2048;
/// And so many spans.
const MOST_SPANS: usize = 16;

pub fn is_short(arguments: &Arguments, answer: &Answer) -> bool {
    is_within(arguments, answer, LONGEST, LONGEST_OUTPUT)
}

pub fn is_replayed(arguments: &Arguments, answer: &Answer) -> bool {
    is_within(arguments, answer, LONGEST_REPLAYED, LONGEST_REPLAYED)
}

fn is_within(
    arguments: &Arguments,
    answer: &Answer,
    longest: usize,
    longest_output: usize,
) -> bool {
    let table = arguments.table;
    let register = arguments.register.buffer;
    let read = [arguments.text, table.list, table.pool, register];
    let written = [
        answer.room,
        answer.scratch_room,
        answer.list_room,
        answer.pool_room,
    ];
    read.iter().all(|bytes| bytes.len() <= longest)
        && written.iter().all(|&room| room <= longest_output)
        && arguments.spans.len() <= MOST_SPANS
}

pub fn line(call: &Call, arguments: &Arguments, answer: &Answer) -> String {
    let words = [answer.number.into(), answer.first, answer.second];
    let mut fields = vec![call.name.to_string()];
    for &parameter in call.parameters {
        fields.extend(given(parameter, arguments, answer));
    }
    fields.push("=".to_string());
    fields.extend(words.map(|word| word.to_string()));
    for &parameter in call.parameters {
        fields.extend(left(parameter, answer));
    }
    fields.join(" ")
}

/// A buffer that is written by its length.
fn given(parameter: Parameter, arguments: &Arguments, answer: &Answer) -> Vec<String> {
    match parameter {
        Parameter::Text => vec![hex(arguments.text)],
        Parameter::Spans => span_fields(arguments.spans),
        Parameter::Choice => vec![arguments.choice.to_string()],
        Parameter::Depth => vec![arguments.depth.to_string()],
        Parameter::Limit => vec![arguments.limit.to_string()],
        Parameter::Table => vec![hex(arguments.table.list), hex(arguments.table.pool)],
        Parameter::NewTable => vec![answer.list_room.to_string(), answer.pool_room.to_string()],
        Parameter::Scratch => vec![answer.scratch_room.to_string()],
        Parameter::Output => vec![answer.room.to_string()],
        Parameter::Cursor => cursor_fields(arguments.cursor),
        Parameter::Offset => vec![arguments.offset.to_string()],
        Parameter::Register | Parameter::RegisterRead => {
            let Held { buffer, used } = arguments.register;
            vec![hex(buffer), used.to_string()]
        }
        Parameter::Report => vec![],
    }
}

/// What the call leaves there.
fn left(parameter: Parameter, answer: &Answer) -> Vec<String> {
    match parameter {
        Parameter::NewTable => vec![hex(&answer.list), hex(&answer.pool)],
        Parameter::Scratch => vec![hex(&answer.scratch)],
        Parameter::Output => vec![hex(&answer.written)],
        Parameter::Cursor => cursor_fields(answer.cursor),
        Parameter::Offset => vec![answer.offset.to_string()],
        Parameter::Register => {
            let Left { buffer, used } = &answer.register;
            vec![hex(buffer), used.to_string()]
        }
        Parameter::Report => report_fields(&answer.report),
        _ => vec![],
    }
}

/// How many there are, then start and length of each.
fn span_fields(spans: &[Span]) -> Vec<String> {
    let pairs = spans.iter().flat_map(|span| [span.start, span.length]);
    let numbers = [spans.len() as u64].into_iter().chain(pairs);
    numbers.map(|number| number.to_string()).collect()
}

/// Its words; `-` where it is left.
fn report_fields(report: &[u64]) -> Vec<String> {
    match report {
        [] => vec!["-".to_string()],
        words => words.iter().map(u64::to_string).collect(),
    }
}

fn cursor_fields(cursor: Cursor) -> Vec<String> {
    vec![cursor.offset.to_string(), cursor.finished.to_string()]
}
