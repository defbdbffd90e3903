//! The calls from Rust: the canonical form of a name with an entity, a refusal as an error, CDATA sections, a strict
//! reading, a list's tokens, a register.
//!
//!     rustc --edition 2021 -L native=target/staticlib -l static=govlezna examples/canonical.rs

#[repr(C)]
struct Cursor {
    offset: u64,
    finished: u64,
}

extern "C" {
    fn govlezna_canonical_form(
        text: *const u8,
        text_length: usize,
        version: u8,
        depth: u64,
        limit: u64,
        list: *const u8,
        list_length: usize,
        pool: *const u8,
        pool_length: usize,
        scratch: *mut u8,
        scratch_length: usize,
        out: *mut u8,
        out_length: usize,
        answer: *mut [u64; 2],
    ) -> u32;

    fn govlezna_cdata_next(
        text: *const u8,
        text_length: usize,
        cursor: *mut Cursor,
        answer: *mut [u64; 2],
    ) -> u32;

    fn govlezna_normalize_attribute_value_strict(
        text: *const u8,
        text_length: usize,
        version: u8,
        depth: u64,
        limit: u64,
        list: *const u8,
        list_length: usize,
        pool: *const u8,
        pool_length: usize,
        out: *mut u8,
        out_length: usize,
        answer: *mut [u64; 2],
    ) -> u32;

    fn govlezna_normalize_nmtokens(
        text: *const u8,
        text_length: usize,
        version: u8,
        depth: u64,
        limit: u64,
        list: *const u8,
        list_length: usize,
        pool: *const u8,
        pool_length: usize,
        scratch: *mut u8,
        scratch_length: usize,
        out: *mut u8,
        out_length: usize,
        answer: *mut [u64; 2],
    ) -> u32;

    fn govlezna_next_nmtoken(
        text: *const u8,
        text_length: usize,
        offset: *mut u64,
        answer: *mut [u64; 2],
    ) -> u32;

    fn govlezna_register_add(
        form: *const u8,
        form_length: usize,
        buffer: *mut u8,
        buffer_length: usize,
        used: *mut u64,
        answer: *mut [u64; 2],
    ) -> u32;
}

const NO_SCRATCH: u32 = 18;
const NO_ROOM: u32 = 19;
const NO_TABLE: [u8; 1] = [0];

struct Refusal {
    number: u32,
    answer: [u64; 2],
}

fn accept(number: u32, answer: [u64; 2]) -> Result<(), Refusal> {
    match number {
        0 => Ok(()),
        _ => Err(Refusal { number, answer }),
    }
}

/// An entity table: a list of commands without its end, and a pool.
#[derive(Default)]
struct Table {
    list: Vec<u8>,
    pool: Vec<u8>,
}

impl Table {
    /// None where the definition does not fit: the table stays as it is.
    fn define(&mut self, name: &str, text: &str) -> Option<()> {
        let name_start = u32::try_from(self.pool.len()).ok()?;
        let text_start = u32::try_from(self.pool.len() + name.len()).ok()?;
        let name_length = u8::try_from(name.len()).ok()?;
        let text_length = u16::try_from(text.len()).ok()?;
        self.list.push(1);
        self.list.extend(name_start.to_le_bytes());
        self.list.push(name_length);
        self.list.extend(text_start.to_le_bytes());
        self.list.extend(text_length.to_le_bytes());
        self.pool.extend(name.as_bytes());
        self.pool.extend(text.as_bytes());
        Some(())
    }
}

/// XML 1.0, depth 8, limit 100: the form and the openings. The first call tells how long the form is.
fn canonical_form(text: &str, table: &Table) -> Result<(String, u64), Refusal> {
    let list: Vec<u8> = table.list.iter().copied().chain([0]).collect();
    let (mut scratch, mut out) = ([0; 4], Vec::new());
    loop {
        let mut answer = [0; 2];
        // Each pointer goes with its own length, and the three that are written to overlap nothing.
        let number = unsafe {
            govlezna_canonical_form(
                text.as_ptr(),
                text.len(),
                0,
                8,
                100,
                list.as_ptr(),
                list.len(),
                table.pool.as_ptr(),
                table.pool.len(),
                scratch.as_mut_ptr(),
                scratch.len(),
                out.as_mut_ptr(),
                out.len(),
                &mut answer,
            )
        };
        match number {
            0 => return Ok((String::from_utf8(out).expect("forms are UTF-8"), answer[1])),
            NO_ROOM => out.resize(answer[0] as usize, 0),
            _ => return Err(Refusal { number, answer }),
        }
    }
}

/// Each call checks all that it is handed; so it gets windows, each from where the last one left off to behind the next
/// '>'. Such an end is within no character and no `]]>`. A window without a cut is a part of the section.
fn cdata(mut text: &str) -> Result<String, Refusal> {
    let mut sections = String::from("<![CDATA[");
    loop {
        let (mut cursor, mut answer) = (
            Cursor {
                offset: 0,
                finished: 0,
            },
            [0; 2],
        );
        let mark = text.bytes().skip(1).position(|byte| byte == b'>');
        let window = mark.map_or(text.len(), |at| at + 2);
        let number =
            unsafe { govlezna_cdata_next(text.as_ptr(), window, &mut cursor, &mut answer) };
        accept(number, answer)?;
        let (part, rest) = text.split_at(answer[1] as usize);
        sections += part;
        text = rest;
        if cursor.finished == 0 {
            sections += "]]><![CDATA[";
        } else if text.is_empty() {
            return Ok(sections + "]]>");
        }
    }
}

/// XML 1.0, no table. The value has at most as many bytes as the text.
fn read_strictly(text: &str) -> Result<String, Refusal> {
    let (mut out, mut answer) = (vec![0; text.len()], [0; 2]);
    let number = unsafe {
        govlezna_normalize_attribute_value_strict(
            text.as_ptr(),
            text.len(),
            1,
            8,
            100,
            NO_TABLE.as_ptr(),
            NO_TABLE.len(),
            std::ptr::null(),
            0,
            out.as_mut_ptr(),
            out.len(),
            &mut answer,
        )
    };
    accept(number, answer)?;
    out.truncate(answer[0] as usize);
    Ok(String::from_utf8(out).expect("values are UTF-8"))
}

/// XML 1.0, no table: the value as a list. Asked first for the length of the scratch, then for that of the list.
fn list(text: &str) -> Result<Vec<u8>, Refusal> {
    let (mut scratch, mut out) = (Vec::new(), Vec::new());
    loop {
        let mut answer = [0; 2];
        let number = unsafe {
            govlezna_normalize_nmtokens(
                text.as_ptr(),
                text.len(),
                1,
                8,
                100,
                NO_TABLE.as_ptr(),
                NO_TABLE.len(),
                std::ptr::null(),
                0,
                scratch.as_mut_ptr(),
                scratch.len(),
                out.as_mut_ptr(),
                out.len(),
                &mut answer,
            )
        };
        match number {
            0 => return Ok(out),
            NO_SCRATCH => scratch.resize(answer[0] as usize, 0),
            NO_ROOM => out.resize(answer[0] as usize, 0),
            _ => return Err(Refusal { number, answer }),
        }
    }
}

/// Each window goes from where the last one left off up to the next space.
fn tokens(text: &str) -> Result<Vec<String>, Refusal> {
    let (list, mut at, mut found) = (list(text)?, 0, Vec::new());
    while at < list.len() {
        let (rest, mut offset, mut answer) = (&list[at..], 0, [0; 2]);
        let space = rest.iter().skip(1).position(|&byte| byte == b' ');
        let window = space.map_or(rest.len(), |at| at + 1);
        let number =
            unsafe { govlezna_next_nmtoken(rest.as_ptr(), window, &mut offset, &mut answer) };
        accept(number, answer)?;
        let [start, length] = answer.map(|word| word as usize);
        found.push(String::from_utf8_lossy(&rest[start..start + length]).into_owned());
        at += offset as usize;
    }
    Ok(found)
}

/// A buffer and its used length. Each add makes room for one more form.
#[derive(Default)]
struct Register {
    buffer: Vec<u8>,
    used: u64,
}

impl Register {
    fn add(&mut self, form: &str) -> Result<u64, Refusal> {
        let mut answer = [0; 2];
        self.buffer.resize(self.used as usize + 8 + form.len(), 0);
        let number = unsafe {
            govlezna_register_add(
                form.as_ptr(),
                form.len(),
                self.buffer.as_mut_ptr(),
                self.buffer.len(),
                &mut self.used,
                &mut answer,
            )
        };
        accept(number, answer)?;
        Ok(answer[0])
    }
}

fn show(result: Result<String, Refusal>) {
    match result {
        Ok(text) => println!("{text}"),
        Err(Refusal {
            number,
            answer: [first, second],
        }) => println!("refused by {number}: {first}, {second}"),
    }
}

fn main() {
    let mut table = Table::default();
    table.define("sail", "Gro&#xDF;segel").expect("it is short");
    for name in ["Panel &sail; <3>", "Panel &boom;"] {
        show(
            canonical_form(name, &table)
                .map(|(form, openings)| format!("{form}\nopenings: {openings}")),
        );
    }
    show(cdata("]]>]]>"));
    if table.define("boom", &"x".repeat(65536)).is_none() {
        println!("a definition holds a name of 255 and a text of 65,535 bytes");
    }
    for name in ["Gro&#xDF;segel", "Fock&#1;"] {
        show(read_strictly(name));
    }
    show(tokens(" p1\t p2  p3 ").map(|found| format!("token: {}", found.join("\ntoken: "))));
    let mut names = Register::default();
    for form in ["Fock", "Baum", "Fock"] {
        show(names.add(form).map(|count| format!("{form}: {count}")));
    }
}
