//! The entity table, read as documents 01 and 02 say. The Rust has no such format: this reading is the
//! comparison's own, made from the documents' text alone.

use crate::rust::escape::resolve_xml_entity;
use std::collections::HashMap;

pub const LONGEST_LIST: usize = 49_154;
pub const LONGEST_POOL: usize = 1_048_576;
pub const LONGEST_NAME: usize = 255;
pub const LONGEST_REPLACEMENT: usize = 65_535;

pub const END: u8 = 0;
pub const DEFINE: u8 = 1;
/// The command byte, name start u32, name length u8, text start u32, text length u16.
pub const DEFINITION: usize = 12;
/// An external entity (K9): the command byte, name start u32, name length u8.
pub const DECLARE_EXTERNAL: u8 = 2;
pub const EXTERNAL_DECLARATION: usize = 6;
/// As a list's first byte it says that the texts are past line ends (K4). No definition, and without operands.
pub const MARK: u8 = 3;

/// A table as it is lent.
#[derive(Clone, Copy)]
pub struct Table<'a> {
    pub list: &'a [u8],
    pub pool: &'a [u8],
}

/// The table of the end alone.
pub const EMPTY: Table = Table {
    list: &[END],
    pool: &[],
};

#[derive(Clone, Copy)]
pub struct Definition<'a> {
    pub name: &'a str,
    /// Nothing for an external entity.
    pub text: Option<&'a str>,
}

/// Document 01's number, and the first answer word; the second is 0.
pub type Refusal = (u32, usize);

impl<'a> Table<'a> {
    /// What the table defines, in the order of its commands.
    pub fn definitions(self) -> Result<Vec<Definition<'a>>, Refusal> {
        if self.list.len() > LONGEST_LIST || self.pool.len() > LONGEST_POOL {
            return Err((6, 0));
        }
        let mut definitions = vec![];
        let mut at = self.start();
        loop {
            match self.list.get(at) {
                Some(&END) if at + 1 == self.list.len() => return Ok(definitions),
                Some(&END) => return Err((7, at + 1)),
                Some(&command) => {
                    let size = size(command).ok_or((7, at))?;
                    let operands = self.list.get(at..at + size).ok_or((7, at))?;
                    definitions.push(self.definition(operands).map_err(|number| (number, at))?);
                    at += size;
                }
                None => return Err((7, at)),
            }
        }
    }

    pub fn is_marked(self) -> bool {
        self.list.first() == Some(&MARK)
    }

    /// Where the first command after a mark stands.
    pub fn start(self) -> usize {
        usize::from(self.is_marked())
    }

    /// Whether the Rust can be asked about a table of these definitions: it knows neither external entities nor marked lists.
    pub fn is_the_rusts(self, definitions: &[Definition]) -> bool {
        !self.is_marked() && definitions.iter().all(|defined| defined.text.is_some())
    }

    /// What a whole command defines, or the number by which it is refused.
    fn definition(self, command: &[u8]) -> Result<Definition<'a>, u32> {
        let is_external = command[0] == DECLARE_EXTERNAL;
        let name = self.name(command).ok_or(8u32)?;
        let text = match is_external {
            true => &[],
            false => self.text(command).ok_or(8u32)?,
        };
        match (std::str::from_utf8(name), std::str::from_utf8(text)) {
            (Ok(name), Ok(text)) if !name.is_empty() => Ok(Definition {
                name,
                text: (!is_external).then_some(text),
            }),
            _ => Err(9),
        }
    }

    /// The name that a command gives, if the pool has it.
    pub fn name(self, command: &[u8]) -> Option<&'a [u8]> {
        self.part(&command[1..5], &command[5..6])
    }

    /// The text that a command 1 gives, if the pool has it.
    pub fn text(self, command: &[u8]) -> Option<&'a [u8]> {
        self.part(&command[6..10], &command[10..12])
    }

    fn part(self, start: &[u8], length: &[u8]) -> Option<&'a [u8]> {
        let start = little_endian(start);
        self.pool.get(start..start + little_endian(length))
    }

    /// The commands of a list that has whole commands and nothing else before its end, but for a mark.
    pub fn commands(self) -> Option<Vec<&'a [u8]>> {
        let (end, mut rest) = self.list[self.start()..].split_last()?;
        let mut commands = vec![];
        while let Some(&command) = rest.first() {
            let (whole, after) = rest.split_at_checked(size(command)?)?;
            commands.push(whole);
            rest = after;
        }
        (*end == END).then_some(commands)
    }
}

/// How many bytes a command has that defines a name; nothing for another.
pub fn size(command: u8) -> Option<usize> {
    match command {
        DEFINE => Some(DEFINITION),
        DECLARE_EXTERNAL => Some(EXTERNAL_DECLARATION),
        _ => None,
    }
}

fn little_endian(bytes: &[u8]) -> usize {
    bytes
        .iter()
        .rev()
        .fold(0, |number, &byte| number << 8 | usize::from(byte))
}

/// What a name stands for.
pub enum Meaning<'a> {
    /// The text of the first definition of the name.
    Defined(&'a str),
    /// The first definition of the name says that it is external.
    External,
    /// One of the five, where the table does not define it.
    Predefined(&'static str),
    Nothing,
}

pub fn look_up<'a>(definitions: &[Definition<'a>], name: &str) -> Meaning<'a> {
    meaning(
        definitions.iter().find(|defined| defined.name == name),
        name,
    )
}

fn meaning<'a>(first: Option<&Definition<'a>>, name: &str) -> Meaning<'a> {
    match first {
        Some(defined) => defined.text.map_or(Meaning::External, Meaning::Defined),
        None => resolve_xml_entity(name).map_or(Meaning::Nothing, Meaning::Predefined),
    }
}

/// Definitions for many lookups. Where they are many, the first of each name is found by a map.
pub struct Names<'d, 'a> {
    definitions: &'d [Definition<'a>],
    first: Option<HashMap<&'a str, &'d Definition<'a>>>,
}

impl<'d, 'a> Names<'d, 'a> {
    pub fn new(definitions: &'d [Definition<'a>]) -> Self {
        const FEW: usize = 64;
        let first = (definitions.len() > FEW).then(|| {
            let mut first = HashMap::with_capacity(definitions.len());
            for defined in definitions {
                first.entry(defined.name).or_insert(defined);
            }
            first
        });
        Names { definitions, first }
    }

    /// The definition that binds.
    pub fn first(&self, name: &str) -> Option<&'d Definition<'a>> {
        match &self.first {
            Some(first) => first.get(name).copied(),
            None => self.definitions.iter().find(|defined| defined.name == name),
        }
    }

    pub fn look_up(&self, name: &str) -> Meaning<'a> {
        meaning(self.first(name), name)
    }
}
