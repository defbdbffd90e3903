//! The walks of document 01 with what document 02 adds, read by the comparison itself and from their text alone: neither the Rust nor
//! the library's definitions have a part in it. It answers where the Rust cannot be asked, since it knows no external entities (K9), no
//! texts past line ends (K4) and no characters that are not allowed (K8); everywhere else the comparison asks both, and they have to agree.

use super::checks::{defined_by, settings_checked};
use super::result::Made;
use super::text::checked;
use crate::answer::{refusal, Answer};
use crate::arguments::{Arguments, DEEPEST, LONGEST_OUTPUT};
use crate::table::{Definition, Names};
use std::collections::HashSet;

const PREDEFINED: [(&str, &str); 5] = [
    ("lt", "<"),
    ("gt", ">"),
    ("amp", "&"),
    ("apos", "'"),
    ("quot", "\""),
];

/// Which line ends a text has.
#[derive(Clone, Copy)]
enum LineEnds {
    /// Those of XML 1.0.
    Older,
    /// Those of XML 1.1.
    Newer,
    /// None: it is past them (K4), and CR and LF are characters like TAB.
    Past,
}

/// Which characters may come.
#[derive(Clone, Copy)]
pub enum Rule {
    /// All: document 01's.
    Lenient,
    /// Those of the version (K8).
    Strict,
}

/// A set of characters, by section 2.2 of XML 1.0, fifth edition, or of XML 1.1.
#[derive(Clone, Copy)]
enum Characters {
    All,
    /// Char of XML 1.0.
    Older,
    /// Char of XML 1.1.
    Newer,
    /// Char of XML 1.1 without RestrictedChar.
    Unrestricted,
}

/// How a text is read.
#[derive(Clone, Copy)]
struct Manner {
    ends: LineEnds,
    /// What may stand in it, but between `&` and `;`.
    raw: Characters,
}

/// What stays the same in a walk, whichever text it is in.
struct Settings<'a> {
    /// That of replacement texts.
    inner: Manner,
    /// What a character reference may name.
    named: Characters,
    /// That of the value's own text.
    depth: u64,
    limit: u64,
    names: Names<'a, 'a>,
}

struct Walk<'a> {
    settings: Settings<'a>,
    value: Vec<u8>,
    openings: u64,
    /// The depth that the stops so far need: one in the value's own text 1, one in a text that it opens 2, and so on.
    needed: u64,
    /// Told each name that the table is asked for.
    asked: &'a mut dyn FnMut(&str),
}

/// Attribute normalization.
pub fn normalized(arguments: &Arguments, rule: Rule) -> Result<Made, Answer> {
    walked(arguments, rule, &mut |_| ()).map(|(made, _)| made)
}

/// The least depth (K14): each replacement text is followed with one depth less, from 128 on.
pub fn least_depth(arguments: &Arguments) -> Result<u64, Answer> {
    let deepest = Arguments {
        depth: DEEPEST,
        ..*arguments
    };
    let walked = walked(&deepest, Rule::Lenient, &mut |_| ());
    walked
        .map(|(_, needed)| needed)
        .map_err(|answer| match answer.number {
            16 => refusal(32, 0),
            _ => answer,
        })
}

/// The names that it asks the table for (K13), each once, in the order of asking.
pub fn looked_up(arguments: &Arguments, rule: Rule) -> Vec<String> {
    each_once(|asked| drop(walked(arguments, rule, asked)))
}

/// Those of unescaping.
pub fn looked_up_in_text(arguments: &Arguments) -> Vec<String> {
    each_once(|asked| drop(replaced(arguments, asked)))
}

fn each_once(read: impl FnOnce(&mut dyn FnMut(&str))) -> Vec<String> {
    let (mut names, mut seen) = (vec![], HashSet::new());
    read(&mut |name| {
        if seen.insert(name.to_string()) {
            names.push(name.to_string());
        }
    });
    names
}

/// The value, and the depth that it needs.
fn walked(
    arguments: &Arguments,
    rule: Rule,
    asked: &mut dyn FnMut(&str),
) -> Result<(Made, u64), Answer> {
    settings_checked(arguments)?;
    let text = checked(arguments.text)?;
    let definitions = defined_by(arguments.table)?;
    let is_newer = arguments.choice == 2;
    let ends = match is_newer {
        true => LineEnds::Newer,
        false => LineEnds::Older,
    };
    let (raw, named) = match (rule, is_newer) {
        (Rule::Lenient, _) => (Characters::All, Characters::All),
        (Rule::Strict, false) => (Characters::Older, Characters::Older),
        (Rule::Strict, true) => (Characters::Unrestricted, Characters::Newer),
    };
    let settings = Settings {
        inner: Manner {
            ends: match arguments.table.is_marked() {
                true => LineEnds::Past,
                false => ends,
            },
            raw: named,
        },
        named,
        depth: arguments.depth,
        limit: arguments.limit,
        names: Names::new(&definitions),
    };
    let mut walk = Walk {
        settings,
        value: vec![],
        openings: 0,
        needed: 0,
        asked,
    };
    walk.text(text, Manner { ends, raw }, arguments.depth)?;
    let made = Made {
        bytes: walk.value,
        left_out: 0,
        second: walk.openings,
    };
    Ok((made, walk.needed))
}

impl Walk<'_> {
    /// The value's own text or one of the table.
    fn text(&mut self, text: &str, manner: Manner, depth: u64) -> Result<(), Answer> {
        let mut at = 0;
        while let Some(character) = text[at..].chars().next() {
            if !manner.raw.have(character) {
                return Err(refusal(26, at as u64));
            }
            let rest = &text.as_bytes()[at..];
            let is_stop = manner.ends.has_stop(rest[0]);
            if is_stop && depth > 0 {
                self.needed = self.needed.max(self.settings.depth - depth + 1);
            }
            at += match is_stop {
                false => self.push(character),
                true if depth == 0 => return Err(refusal(16, 0)),
                true if rest[0] == b'&' => self.reference(text, at, depth)?,
                true => match manner.ends.blank(rest) {
                    0 => self.push(character),
                    length => {
                        self.value.push(b' ');
                        length
                    }
                },
            };
        }
        Ok(())
    }

    /// The reference at this offset: how many bytes it has.
    fn reference(&mut self, text: &str, at: usize, depth: u64) -> Result<usize, Answer> {
        let Some(length) = text[at..].find(';') else {
            return Err(unterminated(text, at));
        };
        let name = &text[at + 1..at + length];
        if let Some(number) = name.strip_prefix('#') {
            let character = character(number)?;
            if !self.settings.named.have(character) {
                return Err(refusal(25, 0));
            }
            self.push(character);
        } else if name == "amp" {
            self.value.push(b'&');
        } else {
            (self.asked)(name);
            match bound(self.settings.names.first(name), name) {
                Bound::Nothing => return Err(unknown(at, name)),
                Bound::External => return Err(refusal(27, at as u64)),
                Bound::Defined(_) if self.openings == self.settings.limit => {
                    return Err(refusal(17, at as u64));
                }
                Bound::Defined(inner) => {
                    self.openings += 1;
                    self.text(inner, self.settings.inner, depth - 1)?;
                }
                // Its replacement text is walked as well; none of these has a stop but that of amp, which does not come here.
                Bound::Predefined(character) => self.value.extend(character.bytes()),
            }
        }
        Ok(length + 1)
    }

    /// How many bytes the character has.
    fn push(&mut self, character: char) -> usize {
        let mut bytes = [0; 4];
        let bytes = character.encode_utf8(&mut bytes).as_bytes();
        self.value.extend_from_slice(bytes);
        bytes.len()
    }
}

impl Characters {
    fn have(self, character: char) -> bool {
        let number = u32::from(character);
        match self {
            Characters::All => true,
            Characters::Older => is_char_of_1_0(number),
            Characters::Newer => is_char_of_1_1(number),
            Characters::Unrestricted => is_char_of_1_1(number) && !is_restricted_char(number),
        }
    }
}

fn is_char_of_1_0(number: u32) -> bool {
    matches!(number, 0x9 | 0xA | 0xD | 0x20..=0xD7FF | 0xE000..=0xFFFD | 0x10000..=0x10FFFF)
}

fn is_char_of_1_1(number: u32) -> bool {
    matches!(number, 0x1..=0xD7FF | 0xE000..=0xFFFD | 0x10000..=0x10FFFF)
}

fn is_restricted_char(number: u32) -> bool {
    matches!(number, 0x1..=0x8 | 0xB..=0xC | 0xE..=0x1F | 0x7F..=0x84 | 0x86..=0x9F)
}

impl LineEnds {
    fn has_stop(self, byte: u8) -> bool {
        match byte {
            b'\t' | b'\r' | b'\n' | b'&' => true,
            0xC2 | 0xE2 => matches!(self, LineEnds::Newer),
            _ => false,
        }
    }

    /// How many bytes the blank here has, a TAB or a line end, or without line ends one of three characters; 0 where it is none.
    fn blank(self, rest: &[u8]) -> usize {
        match (self, rest) {
            (LineEnds::Newer, [b'\r', 0xC2, 0x85, ..]) => 3,
            (LineEnds::Older | LineEnds::Newer, [b'\r', b'\n', ..]) => 2,
            (_, [b'\t' | b'\n' | b'\r', ..]) => 1,
            (LineEnds::Newer, [0xC2, 0x85, ..]) => 2,
            (LineEnds::Newer, [0xE2, 0x80, 0xA8, ..]) => 3,
            _ => 0,
        }
    }
}

/// Unescaping. A mark has no say in it. What no output is long enough for is counted and not made.
pub fn unescaped(arguments: &Arguments) -> Result<Made, Answer> {
    replaced(arguments, &mut |_| ())
}

fn replaced(arguments: &Arguments, asked: &mut dyn FnMut(&str)) -> Result<Made, Answer> {
    let text = checked(arguments.text)?;
    let definitions = defined_by(arguments.table)?;
    let names = Names::new(&definitions);
    let (mut result, mut left_out, mut rest) = (String::new(), 0, text);
    while let Some(before) = rest.find('&') {
        let at = text.len() - rest.len() + before;
        result += &rest[..before];
        let inner = &rest[before + 1..];
        let Some(length) = inner
            .find(['&', ';'])
            .filter(|&end| inner[end..].starts_with(';'))
        else {
            return Err(unterminated(text, at));
        };
        let name = &inner[..length];
        rest = &inner[length + 1..];
        if let Some(number) = name.strip_prefix('#') {
            result.push(character(number)?);
            continue;
        }
        asked(name);
        match bound(names.first(name), name) {
            Bound::Nothing => return Err(unknown(at, name)),
            Bound::External => return Err(refusal(27, at as u64)),
            Bound::Defined(inner) if result.len() + inner.len() > LONGEST_OUTPUT => {
                left_out += inner.len()
            }
            Bound::Defined(inner) | Bound::Predefined(inner) => result += inner,
        }
    }
    result += rest;
    Ok(Made {
        bytes: result.into_bytes(),
        left_out,
        second: 0,
    })
}

/// The canonical form of a value.
pub fn canonical(value: &[u8], version: u8) -> Vec<u8> {
    let value = std::str::from_utf8(value).expect("values are UTF-8");
    let mut form = String::with_capacity(value.len());
    for character in value.chars() {
        match character {
            '<' => form += "&lt;",
            '>' => form += "&gt;",
            '&' => form += "&amp;",
            '\'' => form += "&apos;",
            '"' => form += "&quot;",
            '\r' | '\n' | '\t' => form += &format!("&#{};", u32::from(character)),
            '\u{85}' | '\u{2028}' if version == 2 => {
                form += &format!("&#{};", u32::from(character))
            }
            _ => form.push(character),
        }
    }
    form.into_bytes()
}

enum Bound<'a> {
    Defined(&'a str),
    External,
    Predefined(&'static str),
    Nothing,
}

/// The first definition of the name binds, else it is one of the five or unknown.
fn bound<'a>(first: Option<&Definition<'a>>, name: &str) -> Bound<'a> {
    if let Some(definition) = first {
        return definition.text.map_or(Bound::External, Bound::Defined);
    }
    for (predefined, character) in PREDEFINED {
        if predefined == name {
            return Bound::Predefined(character);
        }
    }
    Bound::Nothing
}

/// What stands between `&#` and `;`.
pub fn character(number: &str) -> Result<char, Answer> {
    let (base, digits) = match number.strip_prefix('x') {
        Some(digits) => (16, digits),
        None => (10, number),
    };
    if digits.starts_with(['+', '-']) {
        return Err(refusal(12, 0));
    }
    let mut value = if digits.is_empty() { None } else { Some(0u32) };
    for digit in digits.chars() {
        let more = |value: u32| value.checked_mul(base)?.checked_add(digit.to_digit(base)?);
        value = value.and_then(more);
    }
    match value {
        None => Err(refusal(13, 0)),
        Some(0) => Err(refusal(15, 0)),
        Some(value) => char::from_u32(value).ok_or(refusal(14, value.into())),
    }
}

fn unterminated(text: &str, at: usize) -> Answer {
    Answer {
        second: text.len() as u64,
        ..refusal(10, at as u64)
    }
}

/// The name's start and end.
fn unknown(at: usize, name: &str) -> Answer {
    let start = at + 1;
    Answer {
        second: (start + name.len()) as u64,
        ..refusal(11, start as u64)
    }
}
