//! A row of the table of instructions: a call and the Rust that does the same work.

/// One run: the number is returned, the answer words are written.
pub type Side = Box<dyn FnMut(&mut [u64; 2]) -> u32>;

/// A call on one input, ours and the Rust's.
pub struct Row {
    pub call: String,
    pub input: String,
    pub bytes: usize,
    /// How often a side is run before it is counted: the Rust's allocator takes more for the first pieces of a size.
    pub runs_before: usize,
    pub ours: Side,
    pub rust: Side,
}

impl Row {
    /// The cells of the table that tell it from the others.
    pub fn name(&self) -> String {
        format!("{} | {} | {}", self.call, self.input, self.bytes)
    }

    /// Is this a part of its line?
    pub fn has(&self, part: &str) -> bool {
        format!("| {} |", self.name()).contains(part)
    }

    /// Both sides answer alike.
    pub fn check(&mut self) {
        let mut words = [[0; 2]; 2];
        let numbers = [(self.ours)(&mut words[0]), (self.rust)(&mut words[1])];
        let same = numbers[0] == numbers[1] && words[0] == words[1];
        assert!(same, "{}: {numbers:?}, {words:?}", self.name());
    }
}
