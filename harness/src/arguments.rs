//! What a call is handed, and how the inputs of a comparison are made: one after the other, each taken as it is made.

use crate::lent::{Cursor, Span};
use crate::random::Random;
use crate::register::Held;
use crate::table::{Table, EMPTY, LONGEST_POOL};

/// Document 01's limits. The Rust has the depth alone.
pub const LONGEST_TEXT: usize = 16_777_216;
pub const DEEPEST: u64 = 128;
pub const MOST_OPENINGS: u64 = 1_000_000;
/// Document 02's (K11).
pub const MOST_SPANS: usize = 65_536;
/// So many may be lent.
pub const MOST_SPANS_LENT: usize = MOST_SPANS + 100;

/// Outputs are longer than the result by fewer bytes than this.
pub const MOST_SPARE: usize = 40;
/// The longest text at 6 bytes for each of its own, and what is spare.
pub const LONGEST_OUTPUT: usize = 6 * LONGEST_TEXT + MOST_SPARE;
pub const LONGEST_SCRATCH: usize = LONGEST_TEXT + MOST_SPARE;
/// The scratch of a canonical form holds the character in hand (K7).
pub const HAND: usize = 4;
/// A list and a pool that are written may be lent longer than a table may be.
pub const LONGEST_NEW_LIST: usize = 66_000;
pub const LONGEST_NEW_POOL: usize = LONGEST_POOL + 1000;
/// A register with one entry of a form that is longer than a text may be.
pub const LONGEST_REGISTER: usize = LONGEST_TEXT + 100;
/// Buffers start at every address modulo this.
pub const ALIGNMENTS: usize = 64;

/// Takes each input as it is made.
pub type Sink<'s> = dyn FnMut(Arguments) + 's;
pub type Family = fn(&mut Random, &mut Sink);

/// What a caller hands over. A call reads the parts that it has.
#[derive(Clone, Copy)]
pub struct Arguments<'a> {
    pub text: &'a [u8],
    pub place: Place,
    pub spans: &'a [Span],
    /// The level or the version.
    pub choice: u8,
    pub depth: u64,
    pub limit: u64,
    pub table: Table<'a>,
    pub room: Room,
    pub scratch: Room,
    /// Of a table that is written, beside what its list and its pool need.
    pub new_list: Room,
    pub new_pool: Room,
    pub cursor: Cursor,
    pub offset: u64,
    pub register: Held<'a>,
}

/// Where the text lies when the call is made.
#[derive(Clone, Copy)]
pub enum Place {
    /// In a guarded buffer, at changing addresses.
    Any,
    /// In a guarded buffer, at this address modulo ALIGNMENTS.
    At(usize),
    /// At NULL; the text is empty.
    Null,
    /// Where the input has it, since it is too long to be copied; so it is not checked for changes.
    Itself,
}

/// How long the output is, beside the result, or the scratch, beside what the call needs of it.
#[derive(Clone, Copy, PartialEq, Eq)]
pub enum Room {
    Exact,
    /// One byte too short, unless the result is empty.
    Short,
    /// No output: NULL and length 0.
    Null,
    /// So many bytes longer.
    Spare(usize),
    /// So many bytes, whatever is needed.
    Of(usize),
}

pub const ROOMS: [Room; 4] = [Room::Exact, Room::Short, Room::Null, Room::Spare(9)];

impl Room {
    /// The output's length when the result has so many bytes.
    pub fn length(self, needed: usize) -> usize {
        match self {
            Room::Exact => needed,
            Room::Short => needed.saturating_sub(1),
            Room::Null => 0,
            Room::Spare(more) => needed + more,
            Room::Of(length) => length,
        }
    }
}

impl<'a> Arguments<'a> {
    pub fn text(text: &'a [u8]) -> Self {
        Arguments::at(Place::Any, text)
    }

    pub fn at(place: Place, text: &'a [u8]) -> Self {
        Arguments {
            text,
            place,
            spans: &[],
            choice: 0,
            depth: DEEPEST,
            limit: MOST_OPENINGS,
            table: EMPTY,
            room: Room::Exact,
            scratch: Room::Exact,
            new_list: Room::Exact,
            new_pool: Room::Exact,
            cursor: Cursor::default(),
            offset: 0,
            register: Held::default(),
        }
    }

    /// The bytes of each span; nothing if one leaves the text, where a sum past 64 bits does too.
    pub fn values(&self) -> Option<Vec<&'a [u8]>> {
        let value = |span: &Span| {
            let end = span.start.checked_add(span.length)?;
            self.text
                .get(usize::try_from(span.start).ok()?..usize::try_from(end).ok()?)
        };
        self.spans.iter().map(value).collect()
    }

    pub fn of_table(table: Table<'a>) -> Self {
        Arguments {
            table,
            ..Arguments::text(&[])
        }
    }
}
