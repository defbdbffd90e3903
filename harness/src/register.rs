//! The harness's own register of forms, from document 02 (K10): a list of the forms in the order in which they became present, and a map of
//! their counts. It is read from bytes and written to them.

use std::collections::HashMap;

/// Length and count, before the form's bytes.
pub const HEAD: usize = 8;

/// What a call is lent: the buffer whole, and how much of it is used.
#[derive(Clone, Copy, Default)]
pub struct Held<'a> {
    pub buffer: &'a [u8],
    pub used: u64,
}

/// What a call leaves of it.
#[derive(Clone, Debug, Default, PartialEq, Eq)]
pub struct Left {
    pub buffer: Vec<u8>,
    pub used: u64,
}

/// Why the used bytes are no register: refusal 28.
#[derive(Clone, Copy, Debug, PartialEq, Eq)]
pub enum Damage {
    /// The used length passes the buffer.
    Past,
    /// The last entry does not end where the used bytes do.
    Unfilled,
    ZeroCount,
    NotUtf8,
    Repeated,
}

#[derive(Default)]
pub struct Register {
    forms: Vec<Vec<u8>>,
    counts: HashMap<Vec<u8>, u32>,
}

impl Held<'_> {
    /// The register, or what is wrong with its first entry at fault.
    pub fn read(self) -> Result<Register, Damage> {
        let used = usize::try_from(self.used).map_err(|_| Damage::Past)?;
        let mut rest = self.buffer.get(..used).ok_or(Damage::Past)?;
        let mut register = Register::default();
        while !rest.is_empty() {
            let (count, form, after) = first_entry(rest).ok_or(Damage::Unfilled)?;
            if count == 0 {
                return Err(Damage::ZeroCount);
            }
            if std::str::from_utf8(form).is_err() {
                return Err(Damage::NotUtf8);
            }
            if register.counts.insert(form.to_vec(), count).is_some() {
                return Err(Damage::Repeated);
            }
            register.forms.push(form.to_vec());
            rest = after;
        }
        Ok(register)
    }

    pub fn kept(self) -> Left {
        Left {
            buffer: self.buffer.to_vec(),
            used: self.used,
        }
    }
}

/// Its count, its form, and the bytes after it.
fn first_entry(bytes: &[u8]) -> Option<(u32, &[u8], &[u8])> {
    let (head, rest) = bytes.split_first_chunk::<HEAD>()?;
    let number = |at: usize| u32::from_le_bytes(head[at..at + 4].try_into().unwrap());
    let length = number(0) as usize;
    let form = rest.get(..length)?;
    Some((number(4), form, &rest[length..]))
}

impl Register {
    pub fn count(&self, form: &[u8]) -> u32 {
        self.counts.get(form).copied().unwrap_or(0)
    }

    /// One more of a form in a buffer of this length: its count, or 30.
    pub fn add(&mut self, form: &[u8], room: usize) -> Result<u32, u32> {
        let full = 30;
        if let Some(count) = self.counts.get_mut(form) {
            *count = count.checked_add(1).ok_or(full)?;
            return Ok(*count);
        }
        if self.cost() + HEAD + form.len() > room {
            return Err(full);
        }
        self.forms.push(form.to_vec());
        self.counts.insert(form.to_vec(), 1);
        Ok(1)
    }

    /// One less: its count, or 29.
    pub fn withdraw(&mut self, form: &[u8]) -> Result<u32, u32> {
        let count = self.counts.get_mut(form).ok_or(29u32)?;
        *count -= 1;
        let left = *count;
        if left == 0 {
            self.counts.remove(form);
            self.forms.retain(|other| other != form);
        }
        Ok(left)
    }

    pub fn cost(&self) -> usize {
        self.forms.iter().map(|form| form.len() + HEAD).sum()
    }

    pub fn bytes(&self) -> Vec<u8> {
        let entries = self.forms.iter().map(|form| (&form[..], self.counts[form]));
        bytes_of(entries)
    }
}

/// Entries as they are written, whether they make a register or not.
pub fn bytes_of<'a>(entries: impl IntoIterator<Item = (&'a [u8], u32)>) -> Vec<u8> {
    let mut bytes = vec![];
    for (form, count) in entries {
        bytes.extend((form.len() as u32).to_le_bytes());
        bytes.extend(count.to_le_bytes());
        bytes.extend(form);
    }
    bytes
}
