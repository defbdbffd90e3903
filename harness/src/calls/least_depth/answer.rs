//! What the least depth is, in document 02's words: the normalized value is asked for at one depth after the other.

use crate::answer::{refusal, success, Answer};
use crate::arguments::{Arguments, DEEPEST};
use crate::oracle::{entities, reading};

/// The first depth that is not answered by 16, of a value that is accepted at 128; else the refusal there, with 32 for 16.
pub fn answer(arguments: &Arguments) -> Answer {
    let refused_at = |depth| {
        let arguments = Arguments {
            depth,
            ..*arguments
        };
        entities::normalized(&arguments).err()
    };
    match refused_at(DEEPEST) {
        Some(refused) if refused.number == 16 => refusal(32, 0),
        Some(refused) => refused,
        None => {
            let is_too_small =
                |depth| refused_at(depth).is_some_and(|refused| refused.number == 16);
            let least = (0..=DEEPEST).find(|&depth| !is_too_small(depth));
            success(least.expect("128 is enough"))
        }
    }
}

/// By one walk, and without the Rust.
pub fn reading(arguments: &Arguments) -> Answer {
    match reading::least_depth(arguments) {
        Ok(depth) => success(depth),
        Err(refused) => refused,
    }
}
