//! What calls are lent, as C sees it, and the one form of all calls.

use std::ptr::{null, null_mut};

/// Where the next CDATA piece starts, and whether there is none: any flag but 0.
#[repr(C)]
#[derive(Clone, Copy, Debug, Default, PartialEq, Eq)]
pub struct Cursor {
    pub offset: u64,
    pub finished: u64,
}

/// A value of a job: where it starts in the text, and how many bytes it has.
#[repr(C)]
#[derive(Clone, Copy, Debug, Default, PartialEq, Eq)]
pub struct Span {
    pub start: u64,
    pub length: u64,
}

/// How many words a rehearsal's report has.
pub const REPORT: usize = 29;

/// What a call is lent, as C sees it. A call takes the parts that it has.
pub struct Lent {
    pub text: *const u8,
    pub text_length: usize,
    pub spans: *const Span,
    pub span_count: usize,
    pub choice: u8,
    pub depth: u64,
    pub limit: u64,
    pub list: *const u8,
    pub list_length: usize,
    pub pool: *const u8,
    pub pool_length: usize,
    /// A table that is written.
    pub new_list: *mut u8,
    pub new_list_length: usize,
    pub new_pool: *mut u8,
    pub new_pool_length: usize,
    pub scratch: *mut u8,
    pub scratch_length: usize,
    pub out: *mut u8,
    pub out_length: usize,
    pub cursor: *mut Cursor,
    pub offset: *mut u64,
    pub buffer: *mut u8,
    pub buffer_length: usize,
    pub used: *mut u64,
    pub report: *mut u64,
    pub answer: *mut u64,
}

impl Lent {
    /// Nothing at all: a caller names what its call has.
    pub const NOTHING: Lent = Lent {
        text: null(),
        text_length: 0,
        spans: null(),
        span_count: 0,
        choice: 0,
        depth: 0,
        limit: 0,
        list: null(),
        list_length: 0,
        pool: null(),
        pool_length: 0,
        new_list: null_mut(),
        new_list_length: 0,
        new_pool: null_mut(),
        new_pool_length: 0,
        scratch: null_mut(),
        scratch_length: 0,
        out: null_mut(),
        out_length: 0,
        cursor: null_mut(),
        offset: null_mut(),
        buffer: null_mut(),
        buffer_length: 0,
        used: null_mut(),
        report: null_mut(),
        answer: null_mut(),
    };
}

/// A call in the form that all of them share, so that a wrong one can be put in its place.
/// Its caller owes what a C caller owes: memory of the lengths stated, free of other users.
pub type Run = unsafe fn(&Lent) -> u32;
