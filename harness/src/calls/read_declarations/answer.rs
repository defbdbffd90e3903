//! What the call has to answer: nothing that the Rust has, so all of it is document 02's.

use super::reading::declared;
use crate::answer::{refusal, success, Answer};
use crate::arguments::{Arguments, LONGEST_NEW_LIST, LONGEST_NEW_POOL};
use crate::draft::Draft;
use crate::oracle::text::{checked, length_checked};
use crate::table::LONGEST_POOL;

pub fn answer(arguments: &Arguments) -> Answer {
    match read(arguments) {
        Ok(table) => written(arguments, table),
        Err(refusal) => in_some_room(arguments, refusal),
    }
}

/// Refusals 1, 4 and 5, and those of the text's form.
fn read(arguments: &Arguments) -> Result<Draft, Answer> {
    length_checked(arguments.text)?;
    if arguments.choice > 2 {
        return Err(refusal(4, 0));
    }
    let declared = declared(checked(arguments.text)?, arguments.choice == 2)?;
    let mut draft = Draft::default();
    for entity in &declared {
        draft.define(entity.name.as_bytes(), entity.value.as_bytes());
    }
    Ok(draft.ended().marked())
}

/// The table in the room that there is, or 23.
fn written(arguments: &Arguments, Draft { list, pool }: Draft) -> Answer {
    let answer = Answer {
        list_room: arguments.new_list.length(list.len()).min(LONGEST_NEW_LIST),
        pool_room: arguments.new_pool.length(pool.len()).min(LONGEST_NEW_POOL),
        second: pool.len() as u64,
        ..success(list.len() as u64)
    };
    let fits = list.len() <= answer.list_room && pool.len() <= answer.pool_room;
    match fits && pool.len() <= LONGEST_POOL {
        true => Answer {
            list,
            pool,
            ..answer
        },
        false => Answer {
            number: 23,
            ..answer
        },
    }
}

/// There are no lengths that could be asked for.
fn in_some_room(arguments: &Arguments, refusal: Answer) -> Answer {
    const SOME: usize = 26;
    Answer {
        list_room: arguments.new_list.length(SOME),
        pool_room: arguments.new_pool.length(SOME),
        ..refusal
    }
}
