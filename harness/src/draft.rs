//! Entity tables as they are written, sound or not.

use crate::table::{Table, DECLARE_EXTERNAL, DEFINE, END, MARK};

/// A table as it is written.
#[derive(Clone, Default)]
pub struct Draft {
    pub list: Vec<u8>,
    pub pool: Vec<u8>,
}

/// A part of the pool: start and length.
pub type Part = (usize, usize);

/// A name and its text, or none where it is external.
pub type Entity<'a> = (&'a str, Option<&'a str>);

impl Draft {
    /// Names and texts, and the end.
    pub fn of(definitions: &[(&str, &str)]) -> Self {
        let entities = definitions.iter().map(|&(name, text)| (name, Some(text)));
        Draft::of_entities(entities)
    }

    /// Names with texts and external ones, and the end.
    pub fn of_entities<'a>(entities: impl IntoIterator<Item = Entity<'a>>) -> Self {
        let mut draft = Draft::default();
        for (name, text) in entities {
            match text {
                Some(text) => draft.define(name.as_bytes(), text.as_bytes()),
                None => draft.declare_external(name.as_bytes()),
            }
        }
        draft.ended()
    }

    /// Names `n0`, `n1` .. of so many texts, of which each refers to the next; the last is this one.
    pub fn chain(length: usize, last: &str) -> Self {
        let mut draft = Draft::default();
        for index in 0..length {
            let text = match index + 1 == length {
                true => last.to_string(),
                false => format!("<&n{};>", index + 1),
            };
            draft.define(format!("n{index}").as_bytes(), text.as_bytes());
        }
        draft.ended()
    }

    /// Puts name and text at the end of the pool.
    pub fn define(&mut self, name: &[u8], text: &[u8]) {
        let start = self.pool.len();
        self.pool.extend_from_slice(name);
        self.pool.extend_from_slice(text);
        self.refer((start, name.len()), (start + name.len(), text.len()));
    }

    /// Puts the name at the end of the pool.
    pub fn declare_external(&mut self, name: &[u8]) {
        let start = self.pool.len();
        self.pool.extend_from_slice(name);
        self.refer_external((start, name.len()));
    }

    /// Defines by parts of the pool, whatever they hold.
    pub fn refer(&mut self, name: Part, text: Part) {
        self.command(DEFINE, name);
        self.list.extend_from_slice(&(text.0 as u32).to_le_bytes());
        self.list.extend_from_slice(&(text.1 as u16).to_le_bytes());
    }

    pub fn refer_external(&mut self, name: Part) {
        self.command(DECLARE_EXTERNAL, name);
    }

    /// The bytes that both commands begin with.
    fn command(&mut self, command: u8, name: Part) {
        self.list.push(command);
        self.list.extend_from_slice(&(name.0 as u32).to_le_bytes());
        self.list.push(name.1 as u8);
    }

    pub fn ended(mut self) -> Self {
        self.list.push(END);
        self
    }

    /// The same with a mark before its commands.
    pub fn marked(mut self) -> Self {
        self.list.insert(0, MARK);
        self
    }

    /// With a mark or without.
    pub fn marked_if(self, is_marked: bool) -> Self {
        match is_marked {
            true => self.marked(),
            false => self,
        }
    }

    pub fn table(&self) -> Table<'_> {
        Table {
            list: &self.list,
            pool: &self.pool,
        }
    }
}
