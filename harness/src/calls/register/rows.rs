//! Registers of forms of 20 bytes, by their number, and beside ours a function that makes the same checks with std's `HashSet`.

use crate::lent::Lent;
use crate::register::{bytes_of, HEAD};
use crate::rows::table::Ours;
use crate::timing::{row, Row};
use std::collections::HashSet;
use std::hint::black_box;
use std::str::from_utf8;

const NUMBERS: [(usize, &str); 4] = [
    (100, "100 forms of 20 bytes"),
    (1000, "1,000 forms of 20 bytes"),
    (10_000, "10,000 forms of 20 bytes"),
    (100_000, "100,000 forms of 20 bytes"),
];
/// A form that is in none.
const NEW: &[u8] = b"a panel that is new.";

/// Small registers are taken in turn, so that no processor learns one by heart.
struct Registers {
    buffers: Vec<Vec<u8>>,
    used: usize,
    turn: usize,
}

impl Registers {
    fn new(number: usize) -> Self {
        let turns = (10_000 / number).clamp(1, 20);
        let form = |index: usize| format!("panel {:>14}", index * 7919);
        let buffer = |turn: usize| {
            let forms: Vec<String> = (turn * number..(turn + 1) * number).map(form).collect();
            let entries = forms.iter().map(|form| (form.as_bytes(), 1));
            let mut buffer = bytes_of(entries);
            buffer.resize(buffer.len() + HEAD + NEW.len(), 0);
            buffer
        };
        let buffers: Vec<Vec<u8>> = (0..turns).map(buffer).collect();
        let used = buffers[0].len() - HEAD - NEW.len();
        Registers {
            buffers,
            used,
            turn: 0,
        }
    }

    /// The next one, and its used length.
    fn next(&mut self) -> (&mut [u8], usize) {
        self.turn = (self.turn + 1) % self.buffers.len();
        (&mut self.buffers[self.turn], self.used)
    }
}

pub fn counted(run: impl Ours) -> Vec<Row> {
    rows("register_count", run, |form, buffer, used, words| {
        let counted = count(form, buffer, used);
        *words = [counted.unwrap().into(), 0];
    })
}

pub fn added(run: impl Ours) -> Vec<Row> {
    rows("register_add", run, |form, buffer, used, words| {
        // The form is new, and there is room.
        assert_eq!(count(form, buffer, used), Some(0));
        let entry = bytes_of([(form, 1)]);
        buffer[used..used + entry.len()].copy_from_slice(&entry);
        *words = [1, (used + entry.len()) as u64];
    })
}

/// Each call begins with the same used length, so that it does the same work each time.
fn rows(
    call: &str,
    run: impl Ours,
    rust: impl Fn(&[u8], &mut [u8], usize, &mut [u64; 2]) + Copy + 'static,
) -> Vec<Row> {
    let of = |(number, input): (usize, &'static str)| {
        let (mut lent, mut read) = (Registers::new(number), Registers::new(number));
        let bytes = lent.used;
        let ours = move |words: &mut [u64; 2]| {
            let (buffer, used) = lent.next();
            let mut used = used as u64;
            run(&Lent {
                text: black_box(NEW).as_ptr(),
                text_length: NEW.len(),
                buffer: buffer.as_mut_ptr(),
                buffer_length: buffer.len(),
                used: &mut used,
                answer: words.as_mut_ptr(),
                ..Lent::NOTHING
            })
        };
        let rust = move |words: &mut [u64; 2]| {
            let (buffer, used) = read.next();
            rust(black_box(NEW), black_box(buffer), used, words);
            0
        };
        row(
            call,
            input,
            bytes,
            ours,
            rust,
            None::<fn(&mut [u64; 2]) -> u32>,
        )
    };
    NUMBERS.into_iter().map(of).collect()
}

/// The form's count, if the used bytes are a register.
fn count(form: &[u8], buffer: &[u8], used: usize) -> Option<u32> {
    from_utf8(form).ok()?;
    let mut rest = buffer.get(..used)?;
    let mut forms = HashSet::new();
    let mut found = 0;
    while !rest.is_empty() {
        let (head, after) = rest.split_first_chunk::<HEAD>()?;
        let number = |at: usize| u32::from_le_bytes(head[at..at + 4].try_into().unwrap());
        let (length, count) = (number(0) as usize, number(4));
        let own = after.get(..length)?;
        from_utf8(own).ok()?;
        if count == 0 || !forms.insert(own) {
            return None;
        }
        if own == form {
            found = count;
        }
        rest = &after[length..];
    }
    Some(found)
}
