//! The memory that a call is lent: filled before the call, with guard bytes on both sides, and
//! checked whole after it.

use crate::answer::Answer;
use crate::arguments::{Arguments, Place, Room};
use crate::arguments::{
    ALIGNMENTS, LONGEST_NEW_LIST, LONGEST_NEW_POOL, LONGEST_OUTPUT, LONGEST_REGISTER,
    LONGEST_SCRATCH, LONGEST_TEXT, MOST_SPANS_LENT,
};
use crate::lent::{Cursor, Lent, Span, REPORT};
use crate::register::Held;
use crate::table::{Table, LONGEST_LIST, LONGEST_POOL};

const GUARD: usize = 64;
const WORD: usize = std::mem::size_of::<u64>();
const WORDS: usize = 2;
/// The offset and the flag: no byte of a cursor is padding, so each of them is compared.
const CURSOR: usize = 2 * WORD;
const _: () = assert!(std::mem::size_of::<Cursor>() == CURSOR);
/// The same holds for a span.
const SPAN: usize = 2 * WORD;
const _: () = assert!(std::mem::size_of::<Span>() == SPAN);

/// Buffers and guards take these in turn: a byte that happens to be written as it was is seen at
/// another turn. A text read past its end goes on with a digit, a lead byte or a continuation byte.
/// None is 0, so that an answer word left as it was is never taken for a 0.
const FILLS: [u8; 5] = [0xC5, b'1', 0x80, 0xBF, 0x5A];

/// A byte that is not as it has to be, counted from the buffer's start.
pub struct Damage {
    pub buffer: &'static str,
    pub offset: isize,
    pub expected: u8,
    pub found: u8,
}

/// One buffer and its guards.
struct Guarded {
    name: &'static str,
    memory: Vec<u8>,
    /// An offset with room for a guard before it, and an address that is a multiple of ALIGNMENTS.
    origin: usize,
    start: usize,
    end: usize,
    fill: u8,
}

impl Guarded {
    fn new(name: &'static str, capacity: usize) -> Self {
        let memory = vec![0; capacity + 2 * GUARD + 2 * ALIGNMENTS];
        let address = memory.as_ptr() as usize;
        let origin = (address + GUARD).next_multiple_of(ALIGNMENTS) - address;
        Guarded {
            name,
            memory,
            origin,
            start: origin,
            end: origin,
            fill: 0,
        }
    }

    /// A buffer of so many bytes at an address modulo ALIGNMENTS, with its guards filled.
    fn prefill(&mut self, length: usize, alignment: usize, fill: u8) -> &mut [u8] {
        self.start = self.origin + alignment;
        self.end = self.start + length;
        self.fill = fill;
        self.memory[self.start - GUARD..self.end + GUARD].fill(fill);
        &mut self.memory[self.start..self.end]
    }

    /// Takes a copy of what a call is to read, unless it lies elsewhere, and says where it lies.
    fn hold(&mut self, bytes: &[u8], place: Place, alignment: usize, fill: u8) -> *const u8 {
        let copied = match place {
            Place::Any | Place::At(_) => bytes,
            Place::Null | Place::Itself => &[],
        };
        self.prefill(copied.len(), alignment, fill)
            .copy_from_slice(copied);
        match place {
            Place::Any | Place::At(_) => self.pointer(),
            Place::Null => std::ptr::null(),
            Place::Itself => bytes.as_ptr(),
        }
    }

    /// The same check for bytes that a call only reads.
    fn damage_of_held(&self, bytes: &[u8]) -> Option<Damage> {
        self.damage(&bytes[..self.content().len()])
    }

    fn pointer(&mut self) -> *mut u8 {
        self.memory[self.start..].as_mut_ptr()
    }

    fn content(&self) -> &[u8] {
        &self.memory[self.start..self.end]
    }

    /// The first byte that is not as it has to be when the buffer starts with `written` and all the
    /// rest, the guards too, is as it was filled.
    fn damage(&self, written: &[u8]) -> Option<Damage> {
        let rest = self.start + written.len();
        let sound = is_filled(&self.memory[self.start - GUARD..self.start], self.fill)
            && self.memory[self.start..rest] == *written
            && is_filled(&self.memory[rest..self.end + GUARD], self.fill);
        if sound {
            return None;
        }
        self.first_damage(written)
    }

    #[cold]
    fn first_damage(&self, written: &[u8]) -> Option<Damage> {
        (self.start - GUARD..self.end + GUARD).find_map(|at| {
            let written = at.checked_sub(self.start).and_then(|at| written.get(at));
            let expected = written.copied().unwrap_or(self.fill);
            let found = self.memory[at];
            (found != expected).then_some(Damage {
                buffer: self.name,
                offset: at as isize - self.start as isize,
                expected,
                found,
            })
        })
    }
}

/// Without an early end, so that the compiler can take many bytes at a time.
fn is_filled(bytes: &[u8], fill: u8) -> bool {
    bytes.iter().fold(0, |seen, byte| seen | (byte ^ fill)) == 0
}

/// All that a call can be lent.
pub struct Buffers {
    text: Guarded,
    list: Guarded,
    pool: Guarded,
    new_list: Guarded,
    new_pool: Guarded,
    scratch: Guarded,
    out: Guarded,
    cursor: Guarded,
    offset: Guarded,
    register: Guarded,
    used: Guarded,
    spans: Guarded,
    report: Guarded,
    answer: Guarded,
}

impl Buffers {
    pub fn new() -> Self {
        Buffers {
            text: Guarded::new("the text", LONGEST_TEXT + 1),
            list: Guarded::new("the list", LONGEST_LIST + 1),
            pool: Guarded::new("the pool", LONGEST_POOL + 1),
            new_list: Guarded::new("the list written", LONGEST_NEW_LIST),
            new_pool: Guarded::new("the pool written", LONGEST_NEW_POOL),
            scratch: Guarded::new("the scratch", LONGEST_SCRATCH),
            out: Guarded::new("the output", LONGEST_OUTPUT),
            cursor: Guarded::new("the cursor", CURSOR),
            offset: Guarded::new("the offset", WORD),
            register: Guarded::new("the register", LONGEST_REGISTER),
            used: Guarded::new("the used length", WORD),
            spans: Guarded::new("the spans", MOST_SPANS_LENT * SPAN),
            report: Guarded::new("the report", REPORT * WORD),
            answer: Guarded::new("the answer words", WORDS * WORD),
        }
    }

    /// Fills the buffers for one call. `turn` picks the fill, and addresses that are left open.
    pub fn lend(&mut self, arguments: &Arguments, expected: &Answer, turn: usize) -> Lent {
        let fill = FILLS[turn % FILLS.len()];
        let alignment = match arguments.place {
            Place::At(alignment) => alignment,
            _ => turn % ALIGNMENTS,
        };
        // Every address of the output meets every address of the text.
        let other_alignment = turn / ALIGNMENTS % ALIGNMENTS;
        self.out.prefill(expected.room, other_alignment, fill);
        self.scratch
            .prefill(expected.scratch_room, other_alignment ^ alignment, fill);
        self.new_list
            .prefill(expected.list_room, other_alignment, fill);
        self.new_pool
            .prefill(expected.pool_room, other_alignment ^ alignment, fill);
        // A cursor, an offset and an array of words are owed no more than a word's alignment.
        self.cursor
            .prefill(CURSOR, (turn + 3) * WORD % ALIGNMENTS, fill)
            .copy_from_slice(&cursor_bytes(arguments.cursor));
        self.offset
            .prefill(WORD, (turn + 5) * WORD % ALIGNMENTS, fill)
            .copy_from_slice(&arguments.offset.to_ne_bytes());
        let Held { buffer, used } = arguments.register;
        self.used
            .prefill(WORD, (turn + 5) * WORD % ALIGNMENTS, fill)
            .copy_from_slice(&used.to_ne_bytes());
        let register_place = place_in_table(buffer, LONGEST_REGISTER, turn);
        let spans = span_bytes(arguments.spans);
        let spans_place = place_in_table(&spans, MOST_SPANS_LENT * SPAN, turn);
        self.report
            .prefill(REPORT * WORD, (turn + 2) * WORD % ALIGNMENTS, fill);
        self.answer
            .prefill(WORDS * WORD, turn * WORD % ALIGNMENTS, fill);
        let Table { list, pool } = arguments.table;
        let list_place = place_in_table(list, LONGEST_LIST, turn);
        let pool_place = place_in_table(pool, LONGEST_POOL, turn);
        Lent {
            text: self
                .text
                .hold(arguments.text, arguments.place, alignment, fill),
            text_length: arguments.text.len(),
            spans: self
                .spans
                .hold(&spans, spans_place, (turn + 3) * WORD % ALIGNMENTS, fill)
                .cast(),
            span_count: arguments.spans.len(),
            choice: arguments.choice,
            depth: arguments.depth,
            limit: arguments.limit,
            list: self.list.hold(list, list_place, other_alignment, fill),
            list_length: list.len(),
            pool: self.pool.hold(pool, pool_place, alignment, fill),
            pool_length: pool.len(),
            new_list: lent_pointer(&mut self.new_list, arguments.new_list),
            new_list_length: expected.list_room,
            new_pool: lent_pointer(&mut self.new_pool, arguments.new_pool),
            new_pool_length: expected.pool_room,
            scratch: lent_pointer(&mut self.scratch, arguments.scratch),
            scratch_length: expected.scratch_room,
            out: lent_pointer(&mut self.out, arguments.room),
            out_length: expected.room,
            cursor: self.cursor.pointer().cast(),
            offset: self.offset.pointer().cast(),
            buffer: self
                .register
                .hold(buffer, register_place, other_alignment, fill)
                .cast_mut(),
            buffer_length: buffer.len(),
            used: self.used.pointer().cast(),
            report: self.report.pointer().cast(),
            answer: self.answer.pointer().cast(),
        }
    }

    /// The first byte of any buffer that a call has not left as the answer says.
    pub fn damage(&self, arguments: &Arguments, expected: &Answer) -> Option<Damage> {
        self.answer
            .damage(&word_bytes([expected.first, expected.second]))
            .or_else(|| self.out.damage(&expected.written))
            .or_else(|| self.scratch.damage(&expected.scratch))
            .or_else(|| self.new_list.damage(&expected.list))
            .or_else(|| self.new_pool.damage(&expected.pool))
            .or_else(|| self.cursor.damage(&cursor_bytes(expected.cursor)))
            .or_else(|| self.offset.damage(&expected.offset.to_ne_bytes()))
            .or_else(|| self.register.damage_of_held(&expected.register.buffer))
            .or_else(|| self.used.damage(&expected.register.used.to_ne_bytes()))
            .or_else(|| self.report.damage(&report_bytes(&expected.report)))
            .or_else(|| self.spans.damage_of_held(&span_bytes(arguments.spans)))
            .or_else(|| self.text.damage_of_held(arguments.text))
            .or_else(|| self.list.damage_of_held(arguments.table.list))
            .or_else(|| self.pool.damage_of_held(arguments.table.pool))
    }

    pub fn report(&self) -> Vec<u64> {
        let words = self.report.content().chunks_exact(WORD);
        words
            .map(|word| u64::from_ne_bytes(word.try_into().unwrap()))
            .collect()
    }

    pub fn answer_words(&self) -> [u64; WORDS] {
        let word = |at: usize| {
            let bytes = &self.answer.content()[at..at + WORD];
            u64::from_ne_bytes(bytes.try_into().unwrap())
        };
        [word(0), word(WORD)]
    }
}

fn cursor_bytes(cursor: Cursor) -> [u8; CURSOR] {
    word_bytes([cursor.offset, cursor.finished])
}

fn span_bytes(spans: &[Span]) -> Vec<u8> {
    let bytes = |span: &Span| word_bytes([span.start, span.length]);
    spans.iter().flat_map(bytes).collect()
}

fn report_bytes(report: &[u64]) -> Vec<u8> {
    report.iter().flat_map(|word| word.to_ne_bytes()).collect()
}

fn word_bytes(words: [u64; 2]) -> [u8; 2 * WORD] {
    let mut bytes = [0; 2 * WORD];
    bytes[..WORD].copy_from_slice(&words[0].to_ne_bytes());
    bytes[WORD..].copy_from_slice(&words[1].to_ne_bytes());
    bytes
}

/// Too long to be copied: where the input has it. Of no bytes: NULL at every other turn.
fn place_in_table(bytes: &[u8], longest: usize, turn: usize) -> Place {
    match bytes.len() {
        0 if turn % 2 == 0 => Place::Null,
        length if length > longest + 1 => Place::Itself,
        _ => Place::Any,
    }
}

fn lent_pointer(buffer: &mut Guarded, room: Room) -> *mut u8 {
    match room {
        Room::Null => std::ptr::null_mut(),
        _ => buffer.pointer(),
    }
}
