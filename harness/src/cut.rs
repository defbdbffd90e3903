//! Cuts bytes into a call and its arguments, so that a fuzzer's inputs, and those of its inputs that
//! are kept, mean the same. Every sequence of bytes is an input; what is missing is 0.

use crate::arguments::{Arguments, Room, MOST_SPANS, MOST_SPARE};
use crate::call::{Call, Parameter};
use crate::calls::CALLS;
use crate::draft::Draft;
use crate::lent::{Cursor, Span};
use crate::register::{bytes_of, Held};
use crate::table::{Table, MARK};

/// Longer texts take longer, and are the differential run's.
const LONGEST_TEXT: usize = 300;
/// What precedes list, pool and text.
const HEAD: usize = 12;
/// A definition whose starts and lengths have a byte each.
const SHORT_DEFINITION: usize = 4;
/// The same with the command before it.
const SHORT_COMMAND: usize = 5;

/// Gives the call that the first byte picks, its arguments, and the turn that picks addresses and fills.
pub fn cut(bytes: &[u8], each: &mut dyn FnMut(&'static Call, Arguments, usize)) {
    let (first, rest) = bytes.split_first().unwrap_or((&0, &[]));
    let call = &CALLS[usize::from(*first) % CALLS.len()];
    cut_for(call, rest, &mut |arguments, turn| {
        each(call, arguments, turn)
    });
}

/// The arguments and the turn alone. These bytes mean the same whatever other calls there are.
pub fn cut_for(call: &Call, bytes: &[u8], each: &mut dyn FnMut(Arguments, usize)) {
    let mut head = [0; HEAD];
    let (first, rest) = bytes.split_at(bytes.len().min(HEAD));
    head[..first.len()].copy_from_slice(first);
    let [choice, depth, limit, room, scratch, turn_low, turn_high, offset_low, offset_high, finished, list, pool] =
        head;
    let (list, rest) = rest.split_at(rest.len().min(list.into()));
    let (pool, text) = rest.split_at(rest.len().min(pool.into()));
    let list = list_of(list);
    let (spans, text) = match call.has(Parameter::Spans) {
        true => spans_of(text),
        false => (vec![], text),
    };
    let text = &text[..text.len().min(LONGEST_TEXT)];
    let offset = i16::from_le_bytes([offset_low, offset_high]);
    // The others leave the cursor and the offset as they are lent, the usual ones.
    let cursor = match call.has(Parameter::Cursor) {
        true => Cursor {
            offset: i64::from(offset) as u64,
            finished: flag_of(finished),
        },
        false => Cursor::default(),
    };
    let is_register = call.has(Parameter::Register) || call.has(Parameter::RegisterRead);
    let buffer = match is_register {
        true => register_of(pool, depth),
        false => vec![],
    };
    // The used length is right where the offset is 0.
    let spare = usize::from(depth).min(buffer.len());
    let used = (buffer.len() - spare) as u64;
    let register = Held {
        buffer: &buffer,
        used: used.wrapping_add_signed(i64::from(offset) * i64::from(is_register)),
    };
    let lent_offset = match call.has(Parameter::Offset) {
        true => i64::from(offset) as u64,
        false => 0,
    };
    let arguments = Arguments {
        register,
        spans: &spans,
        choice: choice_of(choice),
        depth: depth_of(depth),
        limit: limit_of(limit),
        table: Table { list: &list, pool },
        room: room_of(room),
        scratch: scratch_of(scratch),
        new_list: room_of(room),
        new_pool: room_of(scratch),
        cursor,
        offset: lent_offset,
        ..Arguments::text(text)
    };
    let turn = u16::from_le_bytes([turn_low, turn_high]);
    each(arguments, turn.into());
}

/// How many, then start and length of each; and the text after them.
fn spans_of(bytes: &[u8]) -> (Vec<Span>, &[u8]) {
    let (&count, rest) = bytes.split_first().unwrap_or((&0, &[]));
    let length = rest.len().min(2 * usize::from(count % 16));
    let (pairs, text) = rest.split_at(length);
    let span = |pair: &[u8]| Span {
        start: size_of(pair[0]),
        length: size_of(pair[1]),
    };
    let mut spans: Vec<Span> = pairs.chunks_exact(2).map(span).collect();
    // Up to sixteen times over, or more than there may be.
    spans = spans.repeat(1 + usize::from(count / 16 % 16));
    if count == 255 && !spans.is_empty() {
        spans = spans.repeat(MOST_SPANS / spans.len() + 1);
    }
    (spans, text)
}

/// Small ones, and those whose sums pass 64 bits.
fn size_of(byte: u8) -> u64 {
    match byte {
        0..=239 => byte.into(),
        240..=247 => 1 << (8 * (byte - 240)),
        _ => u64::MAX - u64::from(255 - byte),
    }
}

/// After a 1 bytes as they are; else entries whose lengths and counts have a byte each. So many bytes more come after them.
fn register_of(bytes: &[u8], spare: u8) -> Vec<u8> {
    let mut buffer = match bytes {
        [1, bytes @ ..] => bytes.to_vec(),
        [_, shorts @ ..] => {
            let mut entries: Vec<(&[u8], u32)> = vec![];
            let mut rest = shorts;
            while let [length, count, after @ ..] = rest {
                let (form, after) = after.split_at(after.len().min((*length).into()));
                entries.push((form, count_of(*count)));
                rest = after;
            }
            bytes_of(entries)
        }
        [] => vec![],
    };
    buffer.extend(vec![0x91; spare.into()]);
    buffer
}

/// Few, none, and nearly all that there can be.
fn count_of(byte: u8) -> u32 {
    match byte {
        0..=199 => byte.into(),
        _ => u32::MAX - u32::from(255 - byte),
    }
}

/// Mostly a level or a version that there is.
fn choice_of(byte: u8) -> u8 {
    match byte {
        0..=239 => byte % 4,
        _ => byte,
    }
}

/// Up to the deepest and one more, and depths whose low bits are few.
fn depth_of(byte: u8) -> u64 {
    match byte {
        0..=129 => byte.into(),
        130..=250 => u64::from(byte) - 130,
        251..=254 => 1 << (8 * (byte - 250)),
        255 => u64::MAX,
    }
}

/// Any but 0 means finished: flags of a byte, and ones whose low bits are 0.
fn flag_of(byte: u8) -> u64 {
    match byte {
        0..=239 => byte.into(),
        240..=254 => 1 << (4 * (byte - 239)),
        255 => u64::MAX,
    }
}

/// Few openings, so that a run is short, and limits that are refused.
fn limit_of(byte: u8) -> u64 {
    match byte {
        0..=252 => byte.into(),
        253 => 1_000_001,
        254 => 1 << 32,
        255 => u64::MAX,
    }
}

fn room_of(byte: u8) -> Room {
    match byte % 8 {
        0 => Room::Exact,
        1 => Room::Short,
        2 => Room::Null,
        _ => Room::Spare(usize::from(byte) % MOST_SPARE),
    }
}

/// Also of few bytes, whatever is needed.
fn scratch_of(byte: u8) -> Room {
    match byte % 8 {
        3 => Room::Of(usize::from(byte / 8) % 6),
        _ => room_of(byte),
    }
}

/// The list as it is after a 1, of commands of five bytes and an end after a 2, the same marked after a 3, or else of definitions of four
/// and an end: a fuzzer finds few tables in the long form.
fn list_of(bytes: &[u8]) -> Vec<u8> {
    let mut draft = Draft::default();
    let part = |short: &[u8]| (short[0].into(), short[1].into());
    match bytes {
        [1, list @ ..] => return list.to_vec(),
        [form @ (2 | 3), shorts @ ..] => {
            let is_marked = *form == 3;
            for short in shorts.chunks_exact(SHORT_COMMAND) {
                match short[0] {
                    // One that may not stand there.
                    MARK if is_marked => draft.list.push(MARK),
                    command if command % 2 == 0 => draft.refer_external(part(&short[1..])),
                    _ => draft.refer(part(&short[1..]), part(&short[3..])),
                }
            }
            draft = draft.marked_if(is_marked);
        }
        _ => {
            for short in bytes.get(1..).unwrap_or(&[]).chunks_exact(SHORT_DEFINITION) {
                draft.refer(part(short), part(&short[2..]));
            }
        }
    }
    draft.ended().list
}
