//! The Rust's walk, with the table behind its resolver, and the documents' own reading.

use crate::answer::Answer;
use crate::arguments::Arguments;
use crate::oracle::result::finished;
use crate::oracle::{entities, reading};

pub fn unescape(arguments: &Arguments) -> Answer {
    finished(arguments, entities::unescaped(arguments))
}

pub fn reading(arguments: &Arguments) -> Answer {
    finished(arguments, reading::unescaped(arguments))
}
