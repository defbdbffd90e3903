//! Rows of document 01's Test seams with the answers that stand there, the examples of XML 1.0, 3.3.3, and what document 02's requests
//! say of single cases: what the comparison expects of the library has to agree with them.

use crate::answer::{refusal, Answer};
use crate::arguments::{Arguments, Room, Sink};
use crate::draft::{Draft, Entity};
use crate::lent::{Span, REPORT};
use crate::register::Held;

pub struct Documented {
    given: Given,
    pub text: &'static str,
    spans: &'static [(u64, u64)],
    choice: u8,
    depth: u64,
    limit: u64,
    room: Room,
    scratch: Room,
    new_list: Room,
    new_pool: Room,
    outcome: Outcome,
}

/// The table.
enum Given {
    Entities(&'static [Entity<'static>]),
    /// After a mark.
    Marked(&'static [Entity<'static>]),
    /// `Draft::chain` of so many texts with this last one.
    Chain(usize, &'static str),
    /// List and pool as they are.
    Bytes(&'static [u8], &'static [u8]),
    /// No table: a register's buffer and its used length.
    Register(Held<'static>),
}

pub enum Outcome {
    /// The result, and the second answer word.
    Made(&'static str, u64),
    /// A canonical form, the second answer word, and what is written at the scratch's start.
    Formed(&'static str, u64, &'static [u8]),
    /// The number and both answer words; a scratch is left.
    Answered(u32, u64, u64),
    /// The places of a report that are not 0, with their words.
    Reported(&'static [(usize, u64)]),
    /// List and pool of these names and texts, after a mark.
    Declared(&'static [(&'static str, &'static str)]),
    /// The number and both answer words, and a register's buffer and its used length after the call.
    Left(u32, u64, u64, &'static [u8], u64),
}

pub const fn row(text: &'static str, choice: u8, outcome: Outcome) -> Documented {
    Documented {
        given: Given::Entities(&[]),
        text,
        spans: &[],
        choice,
        depth: 1,
        limit: 0,
        room: Room::Exact,
        scratch: Room::Exact,
        new_list: Room::Exact,
        new_pool: Room::Exact,
        outcome,
    }
}

pub const fn within(depth: u64, limit: u64, row: Documented) -> Documented {
    Documented {
        depth,
        limit,
        ..row
    }
}

/// With these values, each by its start and its length.
pub const fn spanned(spans: &'static [(u64, u64)], row: Documented) -> Documented {
    Documented { spans, ..row }
}

/// With an output of so many bytes.
pub const fn in_room(length: usize, row: Documented) -> Documented {
    let room = Room::Of(length);
    Documented { room, ..row }
}

/// With a scratch of so many bytes.
pub const fn in_scratch(length: usize, row: Documented) -> Documented {
    let scratch = Room::Of(length);
    Documented { scratch, ..row }
}

/// With a list and a pool to be written of so many bytes.
pub const fn in_table(list: usize, pool: usize, row: Documented) -> Documented {
    Documented {
        new_list: Room::Of(list),
        new_pool: Room::Of(pool),
        ..row
    }
}

pub const fn with(entities: &'static [Entity<'static>], row: Documented) -> Documented {
    let given = Given::Entities(entities);
    Documented { given, ..row }
}

pub const fn marked(entities: &'static [Entity<'static>], row: Documented) -> Documented {
    let given = Given::Marked(entities);
    Documented { given, ..row }
}

pub const fn chained(length: usize, last: &'static str, row: Documented) -> Documented {
    let given = Given::Chain(length, last);
    Documented { given, ..row }
}

/// A table without a text.
pub const fn table(list: &'static [u8], pool: &'static [u8], outcome: Outcome) -> Documented {
    let given = Given::Bytes(list, pool);
    Documented {
        given,
        ..row("", 0, outcome)
    }
}

/// A form for a register, and what the call leaves.
pub const fn register(
    form: &'static str,
    buffer: &'static [u8],
    used: u64,
    (number, first, second, after, used_after): (u32, u64, u64, &'static [u8], u64),
) -> Documented {
    let given = Given::Register(Held { buffer, used });
    let outcome = Outcome::Left(number, first, second, after, used_after);
    Documented {
        given,
        ..row(form, 0, outcome)
    }
}

impl Documented {
    /// Its input.
    pub fn give(&self, sink: &mut Sink) {
        let of = |entities: &[Entity<'static>]| Draft::of_entities(entities.iter().copied());
        let draft = match self.given {
            Given::Entities(entities) => of(entities),
            Given::Marked(entities) => of(entities).marked(),
            Given::Chain(length, last) => Draft::chain(length, last),
            Given::Bytes(list, pool) => Draft {
                list: list.to_vec(),
                pool: pool.to_vec(),
            },
            Given::Register(_) => Draft::default(),
        };
        let register = match self.given {
            Given::Register(held) => held,
            _ => Held::default(),
        };
        let span = |&(start, length)| Span { start, length };
        let spans: Vec<Span> = self.spans.iter().map(span).collect();
        sink(Arguments {
            register,
            spans: &spans,
            choice: self.choice,
            depth: self.depth,
            limit: self.limit,
            room: self.room,
            scratch: self.scratch,
            new_list: self.new_list,
            new_pool: self.new_pool,
            table: draft.table(),
            ..Arguments::text(self.text.as_bytes())
        });
    }

    /// What is expected instead; nothing where it is the row's answer.
    pub fn differs(&self, expected: impl Fn(&Arguments) -> Answer) -> Option<Answer> {
        let mut answer = refusal(0, 0);
        self.give(&mut |arguments| answer = expected(&arguments));
        let found = (answer.number, answer.first, answer.second);
        let agrees = match self.outcome {
            Outcome::Made(result, second) => {
                found == (0, result.len() as u64, second) && answer.written == result.as_bytes()
            }
            Outcome::Formed(form, second, hand) => {
                found == (0, form.len() as u64, second)
                    && answer.written == form.as_bytes()
                    && answer.scratch == hand
            }
            Outcome::Answered(number, first, second) => {
                found == (number, first, second)
                    && answer.scratch.is_empty()
                    && answer.list.is_empty()
                    && answer.pool.is_empty()
                    && answer.report.is_empty()
            }
            Outcome::Reported(counts) => {
                let mut report = [0; REPORT];
                for &(place, count) in counts {
                    report[place] = count;
                }
                found == (0, 0, 0) && answer.report == report
            }
            Outcome::Declared(definitions) => {
                let Draft { list, pool } = Draft::of(definitions).marked();
                found == (0, list.len() as u64, pool.len() as u64)
                    && answer.list == list
                    && answer.pool == pool
            }
            Outcome::Left(number, first, second, buffer, used) => {
                found == (number, first, second)
                    && answer.register.buffer == buffer
                    && answer.register.used == used
            }
        };
        (!agrees).then_some(answer)
    }
}
