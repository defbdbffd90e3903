//! Values for canonical forms, and what demand 3 says of any two of them.

use super::answer::{canonical_form, in_hand, strict_canonical_form};
use crate::answer::Answer;
use crate::arguments::{Arguments, Room, Sink, DEEPEST, MOST_OPENINGS, ROOMS};
use crate::draft::Draft;
use crate::inputs::attribute::Attribute;
use crate::inputs::number::{written, Form};
use crate::inputs::rooms::random_room;
use crate::inputs::strict::Strict;
use crate::inputs::tables::random_draft;
use crate::inputs::text::{woven, Mix, MIXES};
use crate::inputs::woven::Subject;
use crate::oracle::entities;
use crate::random::Random;

/// Which of the two calls writes the forms.
#[derive(Clone, Copy)]
enum By {
    Lenient,
    Strict,
}

impl By {
    /// With room enough.
    fn in_room(self, arguments: Arguments) -> Answer {
        let arguments = Arguments {
            room: Room::Exact,
            scratch: Room::Exact,
            ..arguments
        };
        match self {
            By::Lenient => canonical_form(&arguments),
            By::Strict => strict_canonical_form(&arguments),
        }
    }

    /// The value alone.
    fn value(self, arguments: &Arguments) -> Vec<u8> {
        let made = match self {
            By::Lenient => entities::normalized(arguments),
            By::Strict => entities::strictly_normalized(arguments),
        };
        made.map_or(vec![], |made| made.bytes)
    }

    fn some_character(self, random: &mut Random, choice: u8) -> char {
        let characters = match (self, choice) {
            (By::Strict, 2) => "a\u{1}\u{1F}\u{7F}\u{80}\u{9F}<& \t\u{85}½",
            _ => "ab<>&'\" ;#\t\r\n\u{85}\u{2028}½€é😀",
        };
        let index = random.below(characters.chars().count());
        characters.chars().nth(index).unwrap()
    }
}

/// Canonical forms as texts. Each has to read as the value that it was written from, without an
/// opening, and to be its own canonical form, under any table that leaves the four names alone.
/// Either table may be marked.
pub fn reread(random: &mut Random, sink: &mut Sink) {
    reread_by::<Attribute>(By::Lenient, random, sink);
}

/// By the strict rule (K8) too, but under 1.1 a form that holds a raw RestrictedChar gets 26 at the first.
pub fn strict_reread(random: &mut Random, sink: &mut Sink) {
    reread_by::<Attribute>(By::Strict, random, sink);
    reread_by::<Strict>(By::Strict, random, sink);
}

fn reread_by<S: Subject>(by: By, random: &mut Random, sink: &mut Sink) {
    const ROUNDS: usize = 40_000;
    for _ in 0..ROUNDS {
        let (mix, gap) = (random.pick(&MIXES), 1 + random.below(10));
        let length = random.below(150);
        let text = S::text(random, mix, gap, length);
        let mut accepted = None;
        S::one(random, Arguments::text(&text), &mut |arguments| {
            let answer = by.in_room(arguments);
            if answer.number == 0 {
                accepted = Some((arguments.choice, by.value(&arguments), answer));
            }
        });
        let Some((choice, value, answer)) = accepted else {
            continue;
        };
        let draft = draft_without_the_four(random);
        let arguments = Arguments {
            choice,
            depth: 1 + random.below(DEEPEST as usize) as u64,
            limit: random.pick(&[0, 1, MOST_OPENINGS]),
            table: draft.table(),
            room: random_room(random),
            ..Arguments::text(&answer.written)
        };
        let again = by.in_room(arguments);
        sink(arguments);
        let restricted = match (by, choice) {
            (By::Strict, 2) => first_restricted(&answer.written),
            _ => None,
        };
        if let Some(at) = restricted {
            assert_eq!(
                (again.number, again.first),
                (26, at),
                "a raw RestrictedChar"
            );
            continue;
        }
        assert_eq!((again.number, again.second), (0, 0), "a form is accepted");
        assert!(by.value(&arguments) == value && again.written == answer.written);
    }
}

/// Where the form has its first RestrictedChar of XML 1.1: of control characters all but TAB, LF, CR and U+0085, which it has not.
fn first_restricted(form: &[u8]) -> Option<u64> {
    let form = std::str::from_utf8(form).expect("forms are UTF-8");
    form.find(char::is_control).map(|at| at as u64)
}

fn draft_without_the_four(random: &mut Random) -> Draft {
    loop {
        let draft = random_draft(random);
        let definitions = draft.table().definitions().expect("a sound table");
        let mut names = definitions.iter().map(|definition| definition.name);
        if !names.any(|name| ["lt", "gt", "apos", "quot"].contains(&name)) {
            return draft;
        }
    }
}

/// Values that are written in several ways, through marked tables and others, and nearly the same value: forms are
/// equal just when the values are.
pub fn spellings(random: &mut Random, sink: &mut Sink) {
    spelled_by(By::Lenient, random, sink);
}

/// By the strict rule (K8) too.
pub fn strict_spellings(random: &mut Random, sink: &mut Sink) {
    spelled_by(By::Strict, random, sink);
}

fn spelled_by(by: By, random: &mut Random, sink: &mut Sink) {
    const ROUNDS: usize = 20_000;
    for _ in 0..ROUNDS {
        let choice = random.pick(&[0, 1, 2]);
        let length = 1 + random.below(12);
        let value: Vec<char> = (0..length)
            .map(|_| by.some_character(random, choice))
            .collect();
        let mut other = value.clone();
        other[random.below(length)] = by.some_character(random, choice);
        let form = given(random, by, choice, &value, sink);
        assert!(
            form == given(random, by, choice, &value, sink),
            "one value, one form"
        );
        let is_same = value == other;
        assert_eq!(form == given(random, by, choice, &other, sink), is_same);
    }
}

/// The form of the value, which a text of random references gives; the text is tried too.
fn given(random: &mut Random, by: By, choice: u8, value: &[char], sink: &mut Sink) -> Vec<u8> {
    let mut draft = Draft::default();
    let is_marked = random.below(2) == 0;
    let mut text = vec![];
    for &character in value {
        text.extend(spelled(random, &mut draft, is_marked, character));
    }
    let draft = draft.ended().marked_if(is_marked);
    let arguments = Arguments {
        choice,
        depth: 2 + random.below(DEEPEST as usize - 1) as u64,
        limit: random.pick(&[value.len() as u64, MOST_OPENINGS]),
        table: draft.table(),
        room: random_room(random),
        ..Arguments::text(&text)
    };
    let answer = by.in_room(arguments);
    let value: String = value.iter().collect();
    assert!(answer.number == 0 && answer.scratch == in_hand(value.as_bytes()));
    assert!(by.value(&arguments) == value.as_bytes());
    sink(arguments);
    answer.written
}

/// The character itself, its number, or the name of a new entity that stands for its number; in a marked table, or where it is a control
/// character, also of one whose text is the character, or for a space a blank.
fn spelled(random: &mut Random, draft: &mut Draft, is_marked: bool, character: char) -> Vec<u8> {
    let form = random.pick(&[Form::Decimal, Form::LowerHexadecimal]);
    let digits = written(u128::from(u32::from(character)), form, random.below(3));
    let number = [b"&#", &digits[..], b";"].concat();
    match random.below(4) {
        0 if !character.is_control() && !"&\u{2028}".contains(character) => {
            character.to_string().into_bytes()
        }
        1 => {
            let name = format!("n{}", draft.list.len());
            let text = match character {
                ' ' if is_marked => vec![random.pick(b"\t\n\r")],
                '\u{85}' | '\u{2028}' | '½' if is_marked => character.to_string().into_bytes(),
                '\t' | '\n' | '\r' | '\u{85}' => number,
                _ if character.is_control() => character.to_string().into_bytes(),
                _ => number,
            };
            draft.define(name.as_bytes(), &text);
            format!("&{name};").into_bytes()
        }
        _ => number,
    }
}

/// The seams of normalization, and characters that the writer changes under one version only.
pub fn seams(random: &mut Random, sink: &mut Sink) {
    Attribute::seams(random, sink);
    for choice in [0, 1, 2] {
        for text in [
            "\u{85}",
            "&#x85;&#x2028;&#9;&#10;&#13;",
            "<a b='1' c=\"&amp;\">",
        ] {
            sink(Arguments {
                choice,
                ..Arguments::text(text.as_bytes())
            });
        }
    }
}

/// Last characters of one to four bytes, as they are, by a reference and in a text of the table; values that end in a `;` of their own; an
/// empty value, and refusals of the walk: with scratches of up to 5 bytes, and outputs that are long enough or not.
pub fn hands(_: &mut Random, sink: &mut Sink) {
    const TEXTS: [&str; 22] = [
        "", "a", "½", "€", "😀", "a<", "&#9;", "&#10;", "&#13;", "\t", "&gt;", "a\"", "'", "&amp;",
        "&amp;;", "&lt;;", "lt;", "&#x85;", "&#x2028;", "&e;", "&x;", "a&",
    ];
    // The value ends as a form does.
    let ends = ["lt;", "amp;", "quot;", "#9;", "#133;", "#8232;"].map(|end| format!("&amp;{end}"));
    let draft = Draft::of(&[("e", "b\u{2028}½\t<;")]);
    for choice in [0, 2] {
        for text in TEXTS.into_iter().chain(ends.iter().map(String::as_str)) {
            for scratch in 0..=5 {
                for room in ROOMS {
                    sink(Arguments {
                        choice,
                        scratch: Room::Of(scratch),
                        room,
                        table: draft.table(),
                        ..Arguments::text(text.as_bytes())
                    });
                }
            }
        }
    }
}

/// Values far longer than their texts, with each scratch, in outputs that are just long enough or not.
pub fn long_values(random: &mut Random, sink: &mut Sink) {
    for length in [1000, 4096, 65_535] {
        let replacement = woven(random, Mix::Mixed, &[b"<", b"\""], 3, length);
        let replacement: Vec<u8> = replacement
            .into_iter()
            .map(|byte| if byte == b'&' { b'"' } else { byte })
            .collect();
        let mut draft = Draft::default();
        draft.define(b"a", &replacement);
        let draft = draft.ended();
        for count in [1, 2, 20] {
            for scratch in ROOMS {
                for room in ROOMS {
                    sink(Arguments {
                        scratch,
                        room,
                        table: draft.table(),
                        ..Arguments::text("&a;".repeat(count).as_bytes())
                    });
                }
            }
        }
    }
}
