//! Wrong libraries for the calls that keep what opened texts gave (crates/memory): each has a text
//! again where it may not.

use super::parts::{table, text};
use crate::arguments::{DEEPEST, MOST_OPENINGS};
use crate::call::Faults;
use crate::lent::{Lent, Run};
use crate::table::{DEFINE, END};
use std::collections::HashMap;
use std::ptr::null_mut;

pub const MEMORY: Faults = &[
    ("a kept text had by another name", had_by_another_name),
    ("a kept text had at too small a depth", had_too_deep),
    ("a kept text had past the limit", had_past_limit),
];

const SLOTS: usize = 16;

fn slot_of(name: &[u8]) -> usize {
    let byte = |at: usize| usize::from(name[at]);
    let length = name.len();
    (byte(0) + 3 * byte(length / 2) + 5 * byte(length - 1) + length) % SLOTS
}

/// What the names of the table stand for: the first definition binds. Of a table that is accepted.
pub unsafe fn definitions(lent: &Lent) -> HashMap<&[u8], &[u8]> {
    let (table, mut definitions) = (table(lent), HashMap::new());
    for command in table.commands().unwrap_or_default() {
        let text = match command[0] {
            DEFINE => table.text(command),
            _ => Some(&b""[..]),
        };
        if let (Some(name), Some(text)) = (table.name(command), text) {
            definitions.entry(name).or_insert(text);
        }
    }
    // It is never looked up.
    definitions.remove(b"amp" as &[u8]);
    definitions
}

/// What stands before the first reference, its name, and what stands after it.
pub fn split(text: &[u8]) -> Option<(&[u8], &[u8], &[u8])> {
    let start = text.iter().position(|&byte| byte == b'&')?;
    let end = start + text[start..].iter().position(|&byte| byte == b';')?;
    Some((&text[..start], &text[start + 1..end], &text[end + 1..]))
}

/// The first name of a slot keeps it, and stands for the others in the call's own text.
unsafe fn had_by_another_name(lent: &Lent, real: Run) -> u32 {
    let number = real(lent);
    if number != 0 {
        return number;
    }
    let definitions = definitions(lent);
    let mut slots: [Option<&[u8]>; SLOTS] = [None; SLOTS];
    let (mut renamed, mut rest) = (vec![], text(lent));
    while let Some((before, name, after)) = split(rest) {
        let name = match !name.starts_with(b"#") && definitions.contains_key(name) {
            true => *slots[slot_of(name)].get_or_insert(name),
            false => name,
        };
        renamed.extend([before, b"&", name, b";"].concat());
        rest = after;
    }
    renamed.extend(rest);
    real(&Lent {
        text: renamed.as_ptr(),
        text_length: renamed.len(),
        ..*lent
    })
}

/// Where all that is too deep is kept, the answer is the one of a depth that is enough.
unsafe fn had_too_deep(lent: &Lent, real: Run) -> u32 {
    let number = real(lent);
    match number {
        16 if Walk::new(lent, real, Mistake::Depth).ends() => real(&Lent {
            depth: DEEPEST,
            ..*lent
        }),
        _ => number,
    }
}

/// Where all that passes the limit is kept, the answer is the one of a limit that is enough.
unsafe fn had_past_limit(lent: &Lent, real: Run) -> u32 {
    let number = real(lent);
    match number {
        17 if Walk::new(lent, real, Mistake::Limit).ends() => real(&Lent {
            limit: MOST_OPENINGS,
            ..*lent
        }),
        _ => number,
    }
}

/// What is not looked at before a kept text is had again.
#[derive(PartialEq, Eq)]
enum Mistake {
    Depth,
    Limit,
}

/// What a walk keeps of a text: whose it is, the depth that it was opened at, and its openings.
#[derive(Clone, Copy)]
struct Kept<'a> {
    name: &'a [u8],
    depth: u64,
    openings: u64,
}

/// The walk with the mistake, of which only 16 and 17 are told.
struct Walk<'a> {
    lent: &'a Lent,
    real: Run,
    mistake: Mistake,
    definitions: HashMap<&'a [u8], &'a [u8]>,
    slots: [Option<Kept<'a>>; SLOTS],
    openings: u64,
    /// The version whose stops texts of the table have: those of a marked list have the older one's.
    inner: u8,
}

impl<'a> Walk<'a> {
    unsafe fn new(lent: &'a Lent, real: Run, mistake: Mistake) -> Self {
        Walk {
            lent,
            real,
            mistake,
            definitions: definitions(lent),
            slots: [None; SLOTS],
            openings: 0,
            inner: match table(lent).is_marked() {
                true => 0,
                false => lent.choice,
            },
        }
    }

    /// Whether neither 16 nor 17 comes.
    unsafe fn ends(mut self) -> bool {
        self.passes(text(self.lent), self.lent.choice, self.lent.depth)
    }

    unsafe fn passes(&mut self, text: &'a [u8], choice: u8, depth: u64) -> bool {
        if depth == 0 {
            return !self.stops(text, choice);
        }
        let mut rest = text;
        while let Some((_, name, after)) = split(rest) {
            let defined = self.definitions.get(name).copied();
            if let Some(text) = defined.filter(|_| !name.starts_with(b"#")) {
                if !self.opens(name, text, depth - 1) {
                    return false;
                }
            }
            rest = after;
        }
        true
    }

    unsafe fn opens(&mut self, name: &'a [u8], text: &'a [u8], depth: u64) -> bool {
        let (slot, before) = (slot_of(name), self.openings);
        if let Some(kept) = self.slots[slot].filter(|kept| kept.name == name) {
            let fits = self.mistake == Mistake::Depth || kept.depth <= depth;
            let made = before + kept.openings;
            if fits && (self.mistake == Mistake::Limit || made <= self.lent.limit) {
                self.openings = made;
                return true;
            }
        }
        if before >= self.lent.limit {
            return false;
        }
        self.openings += 1;
        let passes = self.passes(text, self.inner, depth);
        self.slots[slot] = Some(Kept {
            name,
            depth,
            openings: self.openings - before,
        });
        passes
    }

    /// Whether the text is refused at depth 0, which the version decides.
    unsafe fn stops(&self, text: &[u8], choice: u8) -> bool {
        let mut answer = [0; 2];
        let number = (self.real)(&Lent {
            text: text.as_ptr(),
            text_length: text.len(),
            choice,
            depth: 0,
            list: [END].as_ptr(),
            list_length: 1,
            scratch: null_mut(),
            scratch_length: 0,
            out: null_mut(),
            out_length: 0,
            answer: answer.as_mut_ptr(),
            ..*self.lent
        });
        number == 16
    }
}
