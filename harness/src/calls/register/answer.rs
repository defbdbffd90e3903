//! What the calls on a register have to answer: the harness's own register, src/register.rs.

use crate::answer::{refusal, success, Answer};
use crate::arguments::Arguments;
use crate::oracle::text::checked;
use crate::register::{Held, Left, Register};

pub fn add(arguments: &Arguments) -> Answer {
    let room = arguments.register.buffer.len();
    changed(arguments, |register, form| register.add(form, room))
}

pub fn withdraw(arguments: &Arguments) -> Answer {
    changed(arguments, |register, form| register.withdraw(form))
}

pub fn count(arguments: &Arguments) -> Answer {
    let answer = match read(arguments) {
        Ok(register) => success(register.count(arguments.text).into()),
        Err(refusal) => refusal,
    };
    kept(arguments, answer)
}

/// Refusals 1 and 5 of the form, then 28.
fn read(arguments: &Arguments) -> Result<Register, Answer> {
    checked(arguments.text)?;
    let held = arguments.register;
    held.read().map_err(|_| refusal(28, 0))
}

fn kept(arguments: &Arguments, answer: Answer) -> Answer {
    Answer {
        register: arguments.register.kept(),
        ..answer
    }
}

fn changed(
    arguments: &Arguments,
    change: impl Fn(&mut Register, &[u8]) -> Result<u32, u32>,
) -> Answer {
    let mut register = match read(arguments) {
        Ok(register) => register,
        Err(refusal) => return kept(arguments, refusal),
    };
    match change(&mut register, arguments.text) {
        Err(number) => kept(arguments, refusal(number, 0)),
        Ok(count) => {
            let left = left(arguments.register, &register.bytes());
            Answer {
                second: left.used,
                register: left,
                ..success(count.into())
            }
        }
    }
}

/// What was used and is not any more is zero; what was past it stays.
fn left(held: Held, bytes: &[u8]) -> Left {
    let mut buffer = held.buffer.to_vec();
    buffer[..held.used as usize].fill(0);
    buffer[..bytes.len()].copy_from_slice(bytes);
    Left {
        buffer,
        used: bytes.len() as u64,
    }
}
