//! Wrong libraries, as far as several calls share them: the self-test puts each in the place of the real one.

pub mod answer;
pub mod external;
pub mod index;
pub mod job;
pub mod marked;
pub mod memory;
pub mod new_table;
pub mod output;
pub mod parts;
pub mod reading;
pub mod register;
pub mod scratch;
pub mod strict;
pub mod table;
pub mod text;
pub mod walk;

use crate::call::{Faults, Parameter};

/// Those of every call that has the parameter.
pub fn of(parameter: Parameter) -> Faults {
    match parameter {
        Parameter::Text => text::TEXT,
        Parameter::Spans => job::SPANS,
        Parameter::Report => job::REPORT,
        Parameter::Choice => output::CHOICE,
        Parameter::Table => table::TABLE,
        Parameter::NewTable => new_table::NEW_TABLE,
        Parameter::Scratch => scratch::SCRATCH,
        Parameter::Output => output::OUTPUT,
        Parameter::Register => register::WRITTEN,
        Parameter::RegisterRead => register::READ,
        // What goes wrong with these is the call's own.
        Parameter::Depth | Parameter::Limit | Parameter::Cursor | Parameter::Offset => &[],
    }
}
