//! What a call is. Each is declared in a folder of calls/, with all that the commands of this program need of it.

use crate::answer::Answer;
use crate::arguments::{Arguments, Family};
use crate::documented::Documented;
use crate::lent::{Lent, Run};
use crate::{counting, timing};

pub struct Call {
    /// Without `govlezna_`.
    pub name: &'static str,
    /// In their order, before the answer words.
    pub parameters: &'static [Parameter],
    pub run: Run,
    pub expected: Expected,
    /// The documents' own reading of the call, where there is one: it has to be what is expected.
    pub reading: Option<Expected>,
    /// Wrong readings of what the Rust knows nothing of, with what that is: the documents' rows have to catch each.
    pub misreadings: &'static [(&'static str, Misreadings)],
    /// Rows of the documents that `expected` has to agree with: those that it shares with others, and its own.
    pub documented: &'static [&'static [Documented]],
    /// The inputs that a reader would ask about first; the stored results are made of them too.
    pub seams: Family,
    /// Those that it shares with others, and its own.
    pub families: &'static [&'static [Family]],
    /// A few thousand random inputs, different each time: what longer runs repeat.
    pub random: Family,
    /// What a line of the stored results has, for those who read them; nothing where another call's says it.
    pub stored: &'static str,
    /// Wrong libraries beside those of its parameters.
    pub faults: &'static [Faults],
    pub timed: fn() -> Vec<timing::Row>,
    pub differences: fn() -> Vec<timing::Difference>,
    /// Puts its rows at the end: what is allocated before a row is a part of what the Rust's allocator takes.
    pub counted: fn(&mut Vec<counting::Row>),
}

pub type Expected = fn(&Arguments) -> Answer;

#[derive(Clone, Copy, PartialEq, Eq)]
pub enum Parameter {
    Text,
    /// The values of a job.
    Spans,
    /// A level or a version.
    Choice,
    Depth,
    Limit,
    /// List and pool.
    Table,
    /// List and pool, written.
    NewTable,
    Scratch,
    Output,
    Cursor,
    /// A lent offset, of the next token.
    Offset,
    /// A buffer that is read and written, and its used length.
    Register,
    /// The same, read alone.
    RegisterRead,
    /// How the values fare, written.
    Report,
}

/// A wrong library, made of the real call.
pub type Fault = unsafe fn(&Lent, Run) -> u32;
pub type Faults = &'static [(&'static str, Fault)];

/// A wrong reading, made of the real one.
pub type Misreading = fn(&Arguments, Expected) -> Answer;
pub type Misreadings = &'static [(&'static str, Misreading)];

impl Call {
    pub fn rows(&self) -> impl Iterator<Item = &'static Documented> {
        self.documented.iter().copied().flatten()
    }

    pub fn has(&self, parameter: Parameter) -> bool {
        self.parameters.contains(&parameter)
    }
}
