//! The pieces of the Rust's iterator.

use crate::answer::{refusal, success, Answer, NO_MORE};
use crate::arguments::Arguments;
use crate::lent::Cursor;
use crate::oracle::text::checked;
use crate::rust::utils::CDataIterator;

/// The Rust's iterator keeps what is left of the text: here that is the text from the offset on.
/// Refusal 20, and the cursor, are document 01's.
pub fn cdata_next(arguments: &Arguments) -> Answer {
    let cursor = arguments.cursor;
    let kept = |answer| Answer { cursor, ..answer };
    let text = match checked(arguments.text) {
        Ok(text) => text,
        Err(refusal) => return kept(refusal),
    };
    let rest = match usize::try_from(cursor.offset) {
        Ok(offset) => text.get(offset..),
        Err(_) => None,
    };
    let Some(rest) = rest else {
        return kept(refusal(20, cursor.offset));
    };
    if cursor.finished != 0 {
        return kept(refusal(NO_MORE, 0));
    }
    let mut pieces = CDataIterator::new(rest);
    let piece = pieces.next().expect("a first piece");
    Answer {
        second: piece.len() as u64,
        cursor: after(cursor, piece, pieces.next().is_none()),
        ..success(cursor.offset)
    }
}

fn after(cursor: Cursor, piece: &str, is_last: bool) -> Cursor {
    match is_last {
        true => Cursor {
            finished: 1,
            ..cursor
        },
        false => Cursor {
            offset: cursor.offset + piece.len() as u64,
            ..cursor
        },
    }
}

/// The cursors that one iteration over the whole text comes to, the first and the finished one too.
pub fn cursors(text: &str) -> Vec<Cursor> {
    let mut cursors = vec![Cursor::default()];
    let mut pieces = CDataIterator::new(text).peekable();
    while let Some(piece) = pieces.next() {
        let cursor = *cursors.last().unwrap();
        assert!(text[cursor.offset as usize..].starts_with(piece));
        cursors.push(after(cursor, piece, pieces.peek().is_none()));
    }
    cursors
}
