//! Texts in which the pieces that matter to a call are woven, and whatever else it is handed.

use super::sequences::every_sequence;
use super::sizes::{random_length, MEBIBYTE, PAGE, SHORT_LENGTHS};
use super::spoiled::{every_spoiled, spoil_at_random};
use super::text::{woven, Mix, MIXES};
use crate::arguments::{Arguments, Family, Place, Sink, ALIGNMENTS};
use crate::random::Random;

/// What a call is about.
pub trait Subject: Sized {
    /// Well-formed pieces that the call treats in their own ways, or could be taken for such.
    const PIECES: &'static [&'static [u8]];
    /// Pieces that make a text ill-formed, unless they meet by chance.
    const BROKEN: &'static [&'static [u8]];
    /// Every text of so many pieces is tried.
    const MOST_PIECES: usize;
    /// The bytes that are put into damaged copies.
    const BYTES: &'static [u8];

    /// All of this file, but the random ones.
    const WOVEN: &'static [Family] = &[
        long::<Self>,
        every_short_text::<Self>,
        every_character::<Self>,
        every_sequence_in_context::<Self>,
        every_length_and_address::<Self>,
        damaged::<Self>,
    ];

    fn seams(random: &mut Random, sink: &mut Sink);
    /// The text with everything else that matters: each level and room, or each cursor.
    fn each(arguments: Arguments, sink: &mut Sink);
    /// The text with one of these.
    fn one(random: &mut Random, arguments: Arguments, sink: &mut Sink);

    /// A well-formed text of so many bytes, with a piece in the place of one character out of `gap`.
    fn text(random: &mut Random, mix: Mix, gap: usize, length: usize) -> Vec<u8> {
        woven(random, mix, Self::PIECES, gap, length)
    }
}

/// One piece out of so many characters.
const GAPS: [usize; 4] = [1, 3, 10, 60];

pub fn seams<S: Subject>(random: &mut Random, sink: &mut Sink) {
    S::seams(random, sink);
}

pub fn every_short_text<S: Subject>(_: &mut Random, sink: &mut Sink) {
    let pieces = [S::PIECES, S::BROKEN].concat();
    for length in 0..=S::MOST_PIECES {
        every_sequence(&pieces, length, &mut |sequence| {
            S::each(Arguments::text(&sequence.concat()), sink);
        });
    }
}

/// Every character, alone and between two letters.
pub fn every_character<S: Subject>(random: &mut Random, sink: &mut Sink) {
    const FEW: char = '\u{2100}';
    for character in '\0'..=char::MAX {
        let text = format!("a{character}b");
        let alone = &text[1..text.len() - 1];
        if character < FEW {
            S::each(Arguments::text(alone.as_bytes()), sink);
        }
        S::one(random, Arguments::text(text.as_bytes()), sink);
    }
}

/// Every 1 to 3 pieces at each offset of a text long enough for block loops, and at its end.
pub fn every_sequence_in_context<S: Subject>(random: &mut Random, sink: &mut Sink) {
    let pieces = [S::PIECES, S::BROKEN].concat();
    for before in SHORT_LENGTHS {
        for length in 1..=3 {
            every_sequence(&pieces, length, &mut |sequence| {
                let mut text = vec![b'a'; before];
                text.extend(sequence.iter().copied().flatten());
                S::one(random, Arguments::text(&text), sink);
                text.extend([b'b'; 40]);
                S::one(random, Arguments::text(&text), sink);
            });
        }
    }
}

pub fn every_length_and_address<S: Subject>(random: &mut Random, sink: &mut Sink) {
    for length in SHORT_LENGTHS {
        for address in 0..ALIGNMENTS {
            let place = Place::At(address);
            for mix in [Mix::Ascii, Mix::Dense, Mix::Mixed] {
                for gap in GAPS {
                    let mut text = S::text(random, mix, gap, length);
                    S::one(random, Arguments::at(place, &text), sink);
                    S::one(random, Arguments::at(place, &text), sink);
                    spoil_at_random(random, &mut text, S::BYTES);
                    S::one(random, Arguments::at(place, &text), sink);
                }
            }
        }
    }
}

pub fn damaged<S: Subject>(random: &mut Random, sink: &mut Sink) {
    for mix in MIXES {
        for gap in GAPS {
            for length in [40, 65, 130] {
                let text = S::text(random, mix, gap, length);
                every_spoiled(&text, S::BYTES, &mut |arguments| {
                    S::one(random, arguments, sink);
                });
            }
        }
    }
}

pub fn long<S: Subject>(random: &mut Random, sink: &mut Sink) {
    for length in PAGE - 70..=PAGE + 70 {
        for gap in GAPS {
            some_spoiled::<S>(random, gap, length, sink);
        }
    }
    for length in MEBIBYTE - 1..=MEBIBYTE + 1 {
        for gap in [3, 60] {
            some_spoiled::<S>(random, gap, length, sink);
        }
    }
}

/// A text, the same with each piece at its end, and spoiled at a random place.
fn some_spoiled<S: Subject>(random: &mut Random, gap: usize, length: usize, sink: &mut Sink) {
    let mix = random.pick(&MIXES);
    let mut text = S::text(random, mix, gap, length);
    S::one(random, Arguments::text(&text), sink);
    spoil_at_random(random, &mut text, S::BYTES);
    S::one(random, Arguments::text(&text), sink);
    let piece = random.pick(S::PIECES);
    let mut text = S::text(random, Mix::Ascii, gap, length - piece.len());
    text.extend_from_slice(piece);
    S::one(random, Arguments::text(&text), sink);
}

pub fn random<S: Subject>(random: &mut Random, sink: &mut Sink) {
    for _ in 0..4096 {
        let length = random_length(random);
        let (mix, gap) = (random.pick(&MIXES), random.pick(&GAPS));
        let mut text = S::text(random, mix, gap, length);
        for _ in 0..random.below(6).saturating_sub(3) {
            spoil_at_random(random, &mut text, S::BYTES);
        }
        S::one(random, Arguments::text(&text), sink);
    }
}
