//! Wrong libraries and wrong readings for the strict calls (K8): what is taken for something else in the input, or said otherwise in the
//! answer, by the one and by the other.

use super::parts::{table, text};
use crate::answer::Answer;
use crate::arguments::{Arguments, LONGEST_TEXT};
use crate::call::{Expected, Faults, Misreadings};
use crate::lent::{Lent, Run};
use crate::table::{Table, DEFINE};

macro_rules! mistakes {
    ($($name:literal: $mistake:ty,)*) => {
        pub const LIBRARIES: Faults = &[$(($name, library::<$mistake>),)*];
        /// The Rust is not asked about what they do: the documents' rows have to catch each.
        pub const READINGS: Misreadings = &[$(($name, reading::<$mistake>),)*];
    };
}

mistakes! {
    "U+0000 let through": Value<'\0', 'a', BOTH>,
    "U+000B let through under 1.0": Value<'\u{B}', 'a', OLDER>,
    "U+001F let through under 1.0": Value<'\u{1F}', 'a', OLDER>,
    "U+0001 let through under 1.1": Value<'\u{1}', 'a', NEWER>,
    "U+007F let through under 1.1": Value<'\u{7F}', 'a', NEWER>,
    "U+0080 let through under 1.1": Value<'\u{80}', 'é', NEWER>,
    "U+0084 let through under 1.1": Value<'\u{84}', 'é', NEWER>,
    "U+0086 let through under 1.1": Value<'\u{86}', 'é', NEWER>,
    "U+009F let through under 1.1": Value<'\u{9F}', 'é', NEWER>,
    "U+FFFE let through": Value<'\u{FFFE}', '\u{FFFD}', BOTH>,
    "U+FFFF let through": Value<'\u{FFFF}', '\u{FFFD}', BOTH>,
    "U+FFFD refused": Value<'\u{FFFD}', '\u{FFFE}', BOTH>,
    "U+007F refused under 1.0": Value<'\u{7F}', '\0', OLDER>,
    "U+009F refused under 1.0": Value<'\u{9F}', '\0', OLDER>,
    "U+0085 refused under 1.1": Value<'\u{85}', '\u{84}', NEWER>,
    "U+00A0 refused under 1.1": Value<'\u{A0}', '\u{9F}', NEWER>,
    "U+0001 let through in a table text under 1.0": Texts<'\u{1}', 'a', OLDER>,
    "U+0001 refused in a table text under 1.1": Texts<'\u{1}', '\0', NEWER>,
    "U+007F refused in a table text under 1.1": Texts<'\u{7F}', '\0', NEWER>,
    "U+0000 let through in a table text": Texts<'\0', 'a', BOTH>,
    "U+FFFE let through in a table text": Texts<'\u{FFFE}', '\u{FFFD}', BOTH>,
    "`&#1;` let through under 1.0": NamedByNewer,
    "`&#1;` refused under 1.1": NamedByOlder,
    "`&#xFFFE;` let through": Named,
    "26 for 25": By26,
    "25 before 14": Early25<14>,
    "25 before 15": Early25<15>,
    "25 with a word": Told25,
    "the offset of 26 one more": Later26,
    "the offset of 26 in characters": Counted26,
    "26 with the text's length": Ended26,
    "26 after 16 at its character": Stopped,
    "26 after a 16 of what stands behind it": StoppedBehind,
    "26 before a 16 of what stands before it": Foreseen,
    "26 between `&` and `;`": Inside,
    "26 before 10": Unterminated,
    "texts that are not opened held to the rule": Unopened,
    "the last of the characters told": Last,
}

/// Versions that a mistake is made under.
const OLDER: u8 = 1;
const NEWER: u8 = 2;
const BOTH: u8 = OLDER | NEWER;

/// What an input is taken for.
struct Taken {
    text: Vec<u8>,
    choice: u8,
    depth: u64,
    pool: Vec<u8>,
}

/// A number and both words.
type Words = (u32, u64, u64);

trait Mistake {
    /// The input has a table that is accepted.
    fn take(_: &mut Taken, _: Table) {}

    fn say(_: &Taken, words: Words) -> Words {
        words
    }
}

/// A character of the value's own text taken for another of as many bytes.
struct Value<const FROM: char, const TO: char, const UNDER: u8>;
/// The same of the table's texts.
struct Texts<const FROM: char, const TO: char, const UNDER: u8>;
struct Named;
struct NamedByNewer;
struct NamedByOlder;
struct By26;
struct Early25<const NUMBER: u32>;
struct Told25;
struct Later26;
struct Counted26;
struct Ended26;
struct Stopped;
struct StoppedBehind;
struct Foreseen;
struct Inside;
struct Unterminated;
struct Unopened;
struct Last;

impl<const FROM: char, const TO: char, const UNDER: u8> Mistake for Value<FROM, TO, UNDER> {
    fn take(taken: &mut Taken, _: Table) {
        if taken.is_under(UNDER) {
            replace_raw(&mut taken.text, FROM, TO);
        }
    }
}

impl<const FROM: char, const TO: char, const UNDER: u8> Mistake for Texts<FROM, TO, UNDER> {
    fn take(taken: &mut Taken, table: Table) {
        if !taken.is_under(UNDER) {
            return;
        }
        let start = |bytes: &[u8]| bytes.as_ptr() as usize - table.pool.as_ptr() as usize;
        let commands = table.commands().unwrap_or_default().into_iter();
        let defining = commands.filter(|command| command[0] == DEFINE);
        for text in defining.filter_map(|command| table.text(command)) {
            if !text.is_empty() {
                let at = start(text);
                replace_raw(&mut taken.pool[at..at + text.len()], FROM, TO);
            }
        }
    }
}

/// Where no name stands, so that offsets and names are as they were.
fn replace_raw(text: &mut [u8], from: char, to: char) {
    let (from, to) = (from.to_string(), to.to_string());
    // A shorter one is filled up.
    let to = format!(
        "{to:\0<width$}",
        width = to.chars().count() + from.len() - to.len()
    );
    let mut at = 0;
    while at < text.len() {
        let rest = &mut text[at..];
        at += match rest[0] {
            b'&' => rest
                .iter()
                .position(|&byte| byte == b';')
                .unwrap_or(rest.len()),
            _ if rest.starts_with(from.as_bytes()) => {
                rest[..to.len()].copy_from_slice(to.as_bytes());
                to.len()
            }
            _ => 1,
        };
    }
}

impl Mistake for Named {
    fn take(taken: &mut Taken, _: Table) {
        taken.replace(b"&#xFFFE;", b"&#xFFFD;");
    }
}

impl Mistake for NamedByNewer {
    fn take(taken: &mut Taken, _: Table) {
        if taken.is_under(OLDER) {
            taken.replace(b"&#1;", b"&#9;");
        }
    }
}

impl Mistake for NamedByOlder {
    fn say(taken: &Taken, words: Words) -> Words {
        match words.0 {
            0 if taken.choice == 2 && has(&taken.text, b"&#1;") => (25, 0, 0),
            _ => words,
        }
    }
}

impl Mistake for By26 {
    fn say(_: &Taken, words: Words) -> Words {
        match words {
            (25, ..) => (26, 0, 0),
            _ => words,
        }
    }
}

impl<const NUMBER: u32> Mistake for Early25<NUMBER> {
    fn say(_: &Taken, words: Words) -> Words {
        match words.0 == NUMBER {
            true => (25, 0, 0),
            false => words,
        }
    }
}

impl Mistake for Told25 {
    fn say(_: &Taken, words: Words) -> Words {
        match words {
            (25, ..) => (25, 1, 0),
            _ => words,
        }
    }
}

impl Mistake for Later26 {
    fn say(_: &Taken, words: Words) -> Words {
        match words {
            (26, at, second) => (26, at + 1, second),
            _ => words,
        }
    }
}

impl Mistake for Counted26 {
    fn say(taken: &Taken, words: Words) -> Words {
        let is_start = |byte: &&u8| **byte & 0xC0 != 0x80;
        match words {
            (26, at, second) => {
                let before = taken.text.iter().take(at as usize);
                (26, before.filter(is_start).count() as u64, second)
            }
            _ => words,
        }
    }
}

impl Mistake for Ended26 {
    fn say(taken: &Taken, words: Words) -> Words {
        match words {
            (26, at, _) => (26, at, taken.text.len() as u64),
            _ => words,
        }
    }
}

impl Mistake for Stopped {
    /// Of the bytes that stop a walk under 1.1, C2 alone begins characters that may not stand there.
    fn say(taken: &Taken, words: Words) -> Words {
        match words {
            (26, at, _) if taken.depth == 0 && taken.text[at as usize] == 0xC2 => (16, 0, 0),
            _ => words,
        }
    }
}

impl Mistake for StoppedBehind {
    fn say(taken: &Taken, words: Words) -> Words {
        match words {
            (26, ..) if taken.depth == 0 && taken.text.contains(&b'\t') => (16, 0, 0),
            _ => words,
        }
    }
}

impl Mistake for Foreseen {
    fn say(taken: &Taken, words: Words) -> Words {
        match (words.0, taken.text.iter().position(|&byte| byte == 1)) {
            (16, Some(at)) => (26, at as u64, 0),
            _ => words,
        }
    }
}

impl Mistake for Inside {
    fn say(taken: &Taken, words: Words) -> Words {
        match (words.0, taken.text.iter().position(|&byte| byte == 1)) {
            (11 | 13, Some(at)) => (26, at as u64, 0),
            _ => words,
        }
    }
}

impl Mistake for Unterminated {
    fn say(taken: &Taken, words: Words) -> Words {
        match (words.0, taken.text.iter().position(|&byte| byte == 1)) {
            (10, Some(at)) => (26, at as u64, 0),
            _ => words,
        }
    }
}

impl Mistake for Unopened {
    fn say(taken: &Taken, words: Words) -> Words {
        match (words.0, taken.pool.iter().position(|&byte| byte == 1)) {
            (0, Some(at)) if taken.is_under(OLDER) => (26, at as u64, 0),
            _ => words,
        }
    }
}

impl Mistake for Last {
    fn say(taken: &Taken, words: Words) -> Words {
        match (words.0, taken.text.iter().rposition(|&byte| byte == 1)) {
            (26, Some(at)) if !taken.text.contains(&b'&') => (26, at as u64, 0),
            _ => words,
        }
    }
}

fn has(text: &[u8], part: &[u8]) -> bool {
    text.windows(part.len()).any(|window| window == part)
}

impl Taken {
    fn is_under(&self, versions: u8) -> bool {
        let version = if self.choice == 2 { NEWER } else { OLDER };
        versions & version != 0
    }

    fn replace(&mut self, these: &[u8], others: &[u8]) {
        for at in 0..(self.text.len() + 1).saturating_sub(these.len()) {
            if self.text[at..].starts_with(these) {
                self.text[at..at + others.len()].copy_from_slice(others);
            }
        }
    }
}

unsafe fn library<M: Mistake>(lent: &Lent, real: Run) -> u32 {
    let table = table(lent);
    if table.definitions().is_err() || lent.text_length > LONGEST_TEXT {
        return real(lent);
    }
    let mut taken = Taken {
        text: text(lent).to_vec(),
        choice: lent.choice,
        depth: lent.depth,
        pool: table.pool.to_vec(),
    };
    M::take(&mut taken, table);
    let number = real(&Lent {
        text: taken.text.as_ptr(),
        pool: taken.pool.as_ptr(),
        ..*lent
    });
    let words = (number, *lent.answer, *lent.answer.add(1));
    let (number, first, second) = M::say(&taken, words);
    *lent.answer = first;
    *lent.answer.add(1) = second;
    number
}

fn reading<M: Mistake>(arguments: &Arguments, real: Expected) -> Answer {
    let mut taken = Taken {
        text: arguments.text.to_vec(),
        choice: arguments.choice,
        depth: arguments.depth,
        pool: arguments.table.pool.to_vec(),
    };
    M::take(&mut taken, arguments.table);
    let answer = real(&Arguments {
        text: &taken.text,
        table: Table {
            pool: &taken.pool,
            ..arguments.table
        },
        ..*arguments
    });
    let words = (answer.number, answer.first, answer.second);
    let (number, first, second) = M::say(&taken, words);
    Answer {
        number,
        first,
        second,
        ..answer
    }
}
