//! Texts of declarations, as document 02 (K3) and the productions of XML 1.0, fifth edition, have them: a reader for each production. The
//! library and its definitions have no part in it.

use crate::answer::{refusal, Answer};
use crate::oracle::reading::character;
use crate::table::{LONGEST_NAME, LONGEST_REPLACEMENT};

/// How many declarations a text may have.
pub const MOST_DECLARATIONS: usize = 4096;

/// A general entity that is declared, with its replacement text.
pub struct Declared {
    pub name: String,
    pub value: String,
}

/// All of them, in their order, or the first fault from left to right: 12 to 15, 21 or 22.
pub fn declared(text: &str, is_newer: bool) -> Result<Vec<Declared>, Answer> {
    let text = past_line_ends(text, is_newer);
    let mut reader = Reader { text: &text, at: 0 };
    let mut declared = vec![];
    loop {
        reader.white_space();
        match reader.next() {
            None => return Ok(declared),
            Some('<') if declared.len() == MOST_DECLARATIONS => return Err(reader.too_large()),
            Some(_) => declared.push(reader.declaration()?),
        }
    }
}

/// Section 2.11 of XML 1.0 and of XML 1.1.
fn past_line_ends(text: &str, is_newer: bool) -> String {
    let mut past = String::with_capacity(text.len());
    let mut characters = text.chars().peekable();
    while let Some(character) = characters.next() {
        match character {
            '\r' => {
                let goes_on = |&next: &char| next == '\n' || is_newer && next == '\u{85}';
                characters.next_if(goes_on);
                past.push('\n');
            }
            '\u{85}' | '\u{2028}' if is_newer => past.push('\n'),
            _ => past.push(character),
        }
    }
    past
}

/// What is left of a text that is past line ends.
struct Reader<'a> {
    text: &'a str,
    at: usize,
}

impl<'a> Reader<'a> {
    fn next(&self) -> Option<char> {
        self.text[self.at..].chars().next()
    }

    /// Passes the next character.
    fn pass(&mut self) {
        self.at += self.next().map_or(0, char::len_utf8);
    }

    /// What stands here, or the end, cannot stand here.
    fn departs(&self) -> Answer {
        refusal(21, self.at as u64)
    }

    fn too_large(&self) -> Answer {
        refusal(22, self.at as u64)
    }

    fn literal(&mut self, literal: &str) -> Result<(), Answer> {
        for character in literal.chars() {
            if self.next() != Some(character) {
                return Err(self.departs());
            }
            self.pass();
        }
        Ok(())
    }

    /// [3] S, which may be missing.
    fn white_space(&mut self) {
        while self.next().is_some_and(is_white_space) {
            self.pass();
        }
    }

    /// [3] S.
    fn some_white_space(&mut self) -> Result<(), Answer> {
        if !self.next().is_some_and(is_white_space) {
            return Err(self.departs());
        }
        self.white_space();
        Ok(())
    }

    /// [71] GEDecl, without external identifiers: '<!ENTITY' S Name S EntityValue S? '>'.
    fn declaration(&mut self) -> Result<Declared, Answer> {
        self.literal("<!ENTITY")?;
        self.some_white_space()?;
        let name = self.name()?;
        if !self.next().is_some_and(is_white_space) {
            return Err(self.departs());
        }
        if name.len() > LONGEST_NAME {
            return Err(self.too_large());
        }
        self.white_space();
        let value = self.value()?;
        self.white_space();
        self.literal(">")?;
        let name = name.to_string();
        Ok(Declared { name, value })
    }

    /// [5] Name.
    fn name(&mut self) -> Result<&'a str, Answer> {
        let start = self.at;
        if !self.next().is_some_and(is_name_start) {
            return Err(self.departs());
        }
        while self.next().is_some_and(is_name_character) {
            self.pass();
        }
        Ok(&self.text[start..self.at])
    }

    /// [9] EntityValue, as it is replaced.
    fn value(&mut self) -> Result<String, Answer> {
        let quote = match self.next() {
            Some(quote @ ('"' | '\'')) => quote,
            _ => return Err(self.departs()),
        };
        self.pass();
        let mut value = String::new();
        loop {
            match self.next() {
                None | Some('%') => return Err(self.departs()),
                Some('&') => self.reference(quote, &mut value)?,
                Some(character) if character == quote => break,
                Some(character) => {
                    value.push(character);
                    self.pass();
                }
            }
        }
        if value.len() > LONGEST_REPLACEMENT {
            return Err(self.too_large());
        }
        self.pass();
        Ok(value)
    }

    /// [67] Reference: a character reference is replaced, [68] EntityRef stays.
    fn reference(&mut self, quote: char, value: &mut String) -> Result<(), Answer> {
        let start = self.at;
        self.pass();
        if self.next() == Some('#') {
            self.pass();
            value.push(self.character(quote)?);
            return Ok(());
        }
        self.name()?;
        self.literal(";")?;
        value.push_str(&self.text[start..self.at]);
        Ok(())
    }

    /// The rest of a character reference: all to the next `;`, and the quote cannot come before it.
    fn character(&mut self, quote: char) -> Result<char, Answer> {
        let start = self.at;
        loop {
            match self.next() {
                Some(';') => break,
                Some(other) if other != quote => self.pass(),
                _ => return Err(self.departs()),
            }
        }
        let named = character(&self.text[start..self.at])?;
        self.pass();
        Ok(named)
    }
}

fn is_white_space(character: char) -> bool {
    matches!(character, ' ' | '\t' | '\r' | '\n')
}

/// [4] NameStartChar.
pub fn is_name_start(character: char) -> bool {
    matches!(
        character,
        ':' | 'A'..='Z' | '_' | 'a'..='z'
            | '\u{C0}'..='\u{D6}'
            | '\u{D8}'..='\u{F6}'
            | '\u{F8}'..='\u{2FF}'
            | '\u{370}'..='\u{37D}'
            | '\u{37F}'..='\u{1FFF}'
            | '\u{200C}'..='\u{200D}'
            | '\u{2070}'..='\u{218F}'
            | '\u{2C00}'..='\u{2FEF}'
            | '\u{3001}'..='\u{D7FF}'
            | '\u{F900}'..='\u{FDCF}'
            | '\u{FDF0}'..='\u{FFFD}'
            | '\u{10000}'..='\u{EFFFF}'
    )
}

/// [4a] NameChar.
pub fn is_name_character(character: char) -> bool {
    is_name_start(character)
        || matches!(
            character,
            '-' | '.' | '0'..='9' | '\u{B7}' | '\u{300}'..='\u{36F}' | '\u{203F}'..='\u{2040}'
        )
}
