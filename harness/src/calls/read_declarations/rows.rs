//! Texts of 10, 400 and 4,000 declarations, beside expat that parses them in an internal subset with a handler that copies name and value: its
//! parser made for each text, and kept.

use super::expat::{Copies, Expat};
use crate::arguments::{LONGEST_NEW_LIST, LONGEST_NEW_POOL};
use crate::lent::Lent;
use crate::random::{Random, DEFAULT_SEED};
use crate::rows::table::Ours;
use crate::timing::{row, with_left, Row};
use std::hint::black_box;

type Value = fn(&mut Random) -> String;

const KINDS: [(&str, Value); 5] = [
    ("values of 20 bytes", |random| words(random, 20)),
    ("values of 200 bytes", |random| words(random, 200)),
    ("eight references each", references),
    ("200 bytes with LF", lines),
    ("200 bytes, multi-byte", wide),
];
const NUMBERS: [(usize, &str); 3] = [(10, "10"), (400, "400"), (4000, "4,000")];

/// Small texts are taken in turn, so that no processor learns one by heart.
struct Texts {
    texts: Vec<String>,
    turn: usize,
}

impl Texts {
    fn new(number: usize, value: Value) -> Self {
        let mut random = Random::new(DEFAULT_SEED);
        let turns = (4000 / number).clamp(1, 100);
        let mut declaration = |index: usize| {
            let name = format!("panel{}{index}", random.below(10));
            format!("<!ENTITY {name} \"{}\">\n", value(&mut random))
        };
        let texts = (0..turns).map(|_| (0..number).map(&mut declaration).collect());
        Texts {
            texts: texts.collect(),
            turn: 0,
        }
    }

    /// The same texts as documents for expat.
    fn documents(mut self) -> Self {
        for text in &mut self.texts {
            *text = format!("<!DOCTYPE a [\n{text}]><a/>");
        }
        self
    }

    fn next(&mut self) -> &[u8] {
        self.turn = (self.turn + 1) % self.texts.len();
        black_box(self.texts[self.turn].as_bytes())
    }

    fn mean_length(&self) -> usize {
        self.texts.iter().map(String::len).sum::<usize>() / self.texts.len()
    }
}

/// Letters and spaces.
fn words(random: &mut Random, length: usize) -> String {
    let letters = (0..length).map(|_| random.pick(b"abcdefghijklmnopqrstuvwxyz      ") as char);
    letters.collect()
}

/// General references and character references, in any order.
fn references(random: &mut Random) -> String {
    let reference = |_| match random.below(2) {
        0 => format!("&panel{};", random.below(4000)),
        _ => format!("&#x{:X};", 0x20 + random.below(0x500)),
    };
    (0..8).map(reference).collect()
}

fn lines(random: &mut Random) -> String {
    let line = |_| words(random, 39) + "\n";
    (0..5).map(line).collect()
}

fn wide(random: &mut Random) -> String {
    let mut value = String::new();
    while value.len() < 197 {
        match random.below(3) {
            0 => value.push(random.pick(&['\u{E9}', '\u{DF}', '\u{20AC}', '\u{4E2D}'])),
            _ => value.push(random.pick(b"abcdefghij ") as char),
        }
    }
    value
}

pub fn timed(run: impl Ours) -> Vec<Row> {
    let Some(expat) = Expat::load() else {
        eprintln!("no libexpat.so.1: read_declarations is not measured");
        return vec![];
    };
    let mut rows = vec![];
    for (kind, value) in KINDS {
        for (number, said) in NUMBERS {
            let input = format!("{said} declarations, {kind}").leak();
            rows.push(beside_expat(
                "read_declarations, 1.0",
                input,
                0,
                (number, value),
                run,
                expat,
            ));
            if number == 4000 {
                rows.push(beside_expat(
                    "read_declarations, 1.1",
                    input,
                    2,
                    (number, value),
                    run,
                    expat,
                ));
            }
        }
    }
    rows
}

fn beside_expat(
    call: &str,
    input: &'static str,
    version: u8,
    (number, value): (usize, Value),
    run: impl Ours,
    expat: Expat,
) -> Row {
    let texts = || Texts::new(number, value);
    let bytes = texts().mean_length();
    let mut lent = texts();
    let list = vec![0; LONGEST_NEW_LIST].leak();
    let pool = vec![0; LONGEST_NEW_POOL].leak();
    let ours = move |words: &mut [u64; 2]| {
        let text = lent.next();
        run(&Lent {
            text: text.as_ptr(),
            text_length: text.len(),
            choice: version,
            new_list: list.as_mut_ptr(),
            new_list_length: list.len(),
            new_pool: pool.as_mut_ptr(),
            new_pool_length: pool.len(),
            answer: words.as_mut_ptr(),
            ..Lent::NOTHING
        })
    };
    let (mut anew, mut again) = (texts().documents(), texts().documents());
    let mut copies = Copies::with_room(LONGEST_NEW_POOL);
    let made_anew = move |words: &mut [u64; 2]| {
        expat.read(anew.next(), &mut copies);
        *words = black_box(&copies).lengths();
        0
    };
    let (parser, mut copies) = (expat.parser(), Copies::with_room(LONGEST_NEW_POOL));
    let kept = move |words: &mut [u64; 2]| {
        expat.read_again(parser, again.next(), &mut copies);
        *words = black_box(&copies).lengths();
        0
    };
    let none = None::<fn(&mut [u64; 2]) -> u32>;
    with_left(row(call, input, bytes, ours, made_anew, none), kept)
}
