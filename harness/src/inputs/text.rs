//! Well-formed texts.

use crate::random::Random;

/// What a text is made of.
#[derive(Clone, Copy)]
pub enum Mix {
    Ascii,
    /// ASCII with one character of 2 bytes in every 100.
    Sparse,
    /// ASCII letters and Latin or Cyrillic ones in turn.
    Dense,
    /// Chinese characters, 3 bytes each.
    Cjk,
    /// Characters of 2, 3 and 4 bytes at random.
    Mixed,
}

pub const MIXES: [Mix; 5] = [Mix::Ascii, Mix::Sparse, Mix::Dense, Mix::Cjk, Mix::Mixed];

/// A text of exactly `length` bytes: where the next character does not fit, ASCII ends it.
pub fn text(random: &mut Random, mix: Mix, length: usize) -> Vec<u8> {
    woven(random, mix, &[], 1, length)
}

/// The same with one of the pieces, if any, in the place of one character out of `gap`.
pub fn woven(
    random: &mut Random,
    mix: Mix,
    pieces: &[&[u8]],
    gap: usize,
    length: usize,
) -> Vec<u8> {
    let mut text = Vec::with_capacity(length);
    let mut count = 0;
    while text.len() < length {
        if !pieces.is_empty() && random.below(gap) == 0 {
            let piece = random.pick(pieces);
            if text.len() + piece.len() <= length {
                text.extend_from_slice(piece);
                continue;
            }
        }
        let mut character = character(random, mix, text.len(), count);
        if text.len() + character.len_utf8() > length {
            character = ascii(random);
        }
        let mut bytes = [0; 4];
        text.extend_from_slice(character.encode_utf8(&mut bytes).as_bytes());
        count += 1;
    }
    text
}

fn character(random: &mut Random, mix: Mix, offset: usize, count: usize) -> char {
    match mix {
        Mix::Sparse if offset % 100 == 50 => letter_of_2_bytes(random),
        Mix::Dense if count % 2 == 1 => letter_of_2_bytes(random),
        Mix::Ascii | Mix::Sparse | Mix::Dense => ascii(random),
        Mix::Cjk => within(random, 0x4E00, 0x9FFF),
        Mix::Mixed => match random.below(4) {
            0 => within(random, 0x80, 0x7FF),
            1 => within(random, 0x800, 0xD7FF),
            2 => within(random, 0xE000, 0xFFFF),
            _ => within(random, 0x1_0000, 0x10_FFFF),
        },
    }
}

fn ascii(random: &mut Random) -> char {
    within(random, 0x20, 0x7E)
}

fn letter_of_2_bytes(random: &mut Random) -> char {
    match random.below(2) {
        0 => within(random, 0xC0, 0x17F),
        _ => within(random, 0x410, 0x44F),
    }
}

fn within(random: &mut Random, first: u32, last: u32) -> char {
    char::from_u32(random.within(first, last)).expect("a range without surrogates")
}
