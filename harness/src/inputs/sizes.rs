//! Lengths of texts.

use crate::arguments::{Arguments, Place, Sink, LONGEST_TEXT};
use crate::random::Random;
use std::alloc::{alloc_zeroed, dealloc, Layout};

/// The lengths that block loops get wrong, at which texts are also tried at every address.
pub const SHORT_LENGTHS: std::ops::RangeInclusive<usize> = 0..=70;
/// Where blocks of 8, 16, 32 and 64 bytes end and begin.
pub const BLOCK_ENDS: [usize; 8] = [7, 8, 15, 16, 31, 32, 63, 64];
pub const PAGE: usize = 4096;
pub const MEBIBYTE: usize = 1 << 20;

/// Mostly short; few are long, so that they do not take most of the time.
pub fn random_length(random: &mut Random) -> usize {
    match random.below(4000) {
        0 => MEBIBYTE - 70 + random.below(141),
        1..=79 => PAGE - 70 + random.below(141),
        80..=799 => random.below(600),
        _ => random.below(SHORT_LENGTHS.end() + 1),
    }
}

/// No text at all, the longest texts allowed, and longer ones.
pub fn limits(_: &mut Random, sink: &mut Sink) {
    sink(Arguments::at(Place::Null, &[]));
    let mut text = vec![b'0'; LONGEST_TEXT + 1];
    for last in [b'0', b'1', 0x80] {
        text[LONGEST_TEXT - 1] = last;
        text[LONGEST_TEXT] = last;
        sink(Arguments::text(&text[..LONGEST_TEXT - 1]));
        sink(Arguments::text(&text[..LONGEST_TEXT]));
        sink(Arguments::text(&text));
    }
    text[0] = 0xFF; // the length is refused before the bytes
    sink(Arguments::text(&text));
    lengths_of_33_bits(&mut |text| sink(Arguments::at(Place::Itself, text)));
}

/// Lengths whose low 32 bits are few. Such bytes are not to be read: they have addresses, no memory.
pub fn lengths_of_33_bits(each: &mut dyn FnMut(&[u8])) {
    let longest = (1 << 32) + 5;
    let layout = Layout::array::<u8>(longest).unwrap();
    // SAFETY: the layout's size is not 0.
    let start = unsafe { alloc_zeroed(layout) };
    if start.is_null() {
        eprintln!("no room for 2^32 bytes: such lengths are not tried");
        return;
    }
    for length in [1 << 32, longest] {
        // SAFETY: `length` bytes of the allocation, which nothing writes to.
        each(unsafe { std::slice::from_raw_parts(start, length) });
    }
    // SAFETY: allocated above with this layout, and no slice of it is left.
    unsafe { dealloc(start, layout) };
}
