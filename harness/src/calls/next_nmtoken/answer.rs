//! The next token as the Rust's `split` finds it; 20 and the offset are documents 01's and 02's.

use crate::answer::{refusal, success, Answer, NO_MORE};
use crate::arguments::Arguments;
use crate::oracle::text::checked;

/// What `split` finds, which has to be what document 02 says.
pub fn next_nmtoken(arguments: &Arguments) -> Answer {
    let answer = split(arguments);
    assert_eq!(answer, reading(arguments), "the documents' own reading");
    answer
}

fn split(arguments: &Arguments) -> Answer {
    let offset = arguments.offset;
    let kept = |answer| Answer { offset, ..answer };
    let text = match checked(arguments.text) {
        Ok(text) => text,
        Err(refusal) => return kept(refusal),
    };
    let rest = match usize::try_from(offset) {
        Ok(offset) => text.get(offset..),
        Err(_) => None,
    };
    let Some(rest) = rest else {
        return kept(refusal(20, offset));
    };
    let Some(token) = rest.split(' ').find(|token| !token.is_empty()) else {
        return kept(refusal(NO_MORE, 0));
    };
    let start = token.as_ptr() as usize - text.as_ptr() as usize;
    Answer {
        second: token.len() as u64,
        offset: (start + token.len()) as u64,
        ..success(start as u64)
    }
}

/// As document 02 says it: spaces are skipped, and the token goes on to the next one or to the end.
fn reading(arguments: &Arguments) -> Answer {
    let offset = arguments.offset;
    let kept = |answer| Answer { offset, ..answer };
    if let Err(refusal) = checked(arguments.text) {
        return kept(refusal);
    }
    let text = arguments.text;
    let length = text.len() as u64;
    let is_cut = |offset: u64| offset < length && text[offset as usize] & 0xC0 == 0x80;
    if offset > length || is_cut(offset) {
        return kept(refusal(20, offset));
    }
    let mut start = offset as usize;
    while start < text.len() && text[start] == 0x20 {
        start += 1;
    }
    let mut end = start;
    while end < text.len() && text[end] != 0x20 {
        end += 1;
    }
    if start == end {
        return kept(refusal(NO_MORE, 0));
    }
    Answer {
        second: (end - start) as u64,
        offset: end as u64,
        ..success(start as u64)
    }
}

/// The offsets that one iteration over the whole text comes to, the first and the last too.
pub fn offsets(text: &str) -> Vec<u64> {
    let ends = text.split(' ').filter(|token| !token.is_empty());
    let ends = ends.map(|token| {
        let start = token.as_ptr() as usize - text.as_ptr() as usize;
        (start + token.len()) as u64
    });
    std::iter::once(0).chain(ends).collect()
}
