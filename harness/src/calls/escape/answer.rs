//! What the Rust writes at each level.

use crate::answer::Answer;
use crate::arguments::Arguments;
use crate::oracle::result::{written, Rule};
use crate::rust::escape;

pub fn escape(arguments: &Arguments) -> Answer {
    let rule: Option<Rule> = match arguments.choice {
        0 => Some(|text| escape::escape(text)),
        1 => Some(|text| escape::partial_escape(text)),
        2 => Some(|text| escape::minimal_escape(text)),
        3 => Some(|text| escape::escape_attribute(text)),
        _ => None,
    };
    written(arguments, rule)
}
