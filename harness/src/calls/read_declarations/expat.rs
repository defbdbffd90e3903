//! expat as it is installed, found when the program runs: nothing but the benchmark needs it.

use std::ffi::{c_char, c_int, c_uchar, c_void, CStr};
use std::mem::transmute;
use std::ptr::null;

extern "C" {
    fn dlopen(path: *const c_char, mode: c_int) -> *mut c_void;
    fn dlsym(library: *mut c_void, name: *const c_char) -> *mut c_void;
}

const NOW: c_int = 2;

type Parser = *mut c_void;
type Text = *const c_char;
type Handler = unsafe extern "C" fn(*mut c_void, Text, c_int, Text, c_int, Text, Text, Text, Text);

/// The functions of expat.h that are needed.
#[derive(Clone, Copy)]
pub struct Expat {
    create: unsafe extern "C" fn(Text) -> Parser,
    reset: unsafe extern "C" fn(Parser, Text) -> c_uchar,
    free: unsafe extern "C" fn(Parser),
    set_user_data: unsafe extern "C" fn(Parser, *mut c_void),
    set_handler: unsafe extern "C" fn(Parser, Handler),
    parse: unsafe extern "C" fn(Parser, Text, c_int, c_int) -> c_int,
}

/// What a caller keeps of the declarations: each name and then its value, and how many there are.
pub struct Copies {
    bytes: Vec<u8>,
    count: usize,
}

impl Copies {
    pub fn with_room(length: usize) -> Self {
        Copies {
            bytes: Vec::with_capacity(length),
            count: 0,
        }
    }

    /// The lengths of a table that has them.
    pub fn lengths(&self) -> [u64; 2] {
        [12 * self.count as u64 + 2, self.bytes.len() as u64]
    }
}

unsafe extern "C" fn copy(
    copies: *mut c_void,
    name: Text,
    _: c_int,
    value: Text,
    length: c_int,
    _: Text,
    _: Text,
    _: Text,
    _: Text,
) {
    let copies = &mut *copies.cast::<Copies>();
    copies
        .bytes
        .extend_from_slice(CStr::from_ptr(name).to_bytes());
    let value = std::slice::from_raw_parts(value.cast::<u8>(), length as usize);
    copies.bytes.extend_from_slice(value);
    copies.count += 1;
}

impl Expat {
    pub fn load() -> Option<Expat> {
        // SAFETY: the functions are those of expat.h, by their names; the library stays to the end.
        unsafe {
            let library = dlopen(c"libexpat.so.1".as_ptr(), NOW);
            if library.is_null() {
                return None;
            }
            let find = |name: &CStr| {
                let function = dlsym(library, name.as_ptr());
                (!function.is_null()).then_some(function)
            };
            Some(Expat {
                create: transmute(find(c"XML_ParserCreate")?),
                reset: transmute(find(c"XML_ParserReset")?),
                free: transmute(find(c"XML_ParserFree")?),
                set_user_data: transmute(find(c"XML_SetUserData")?),
                set_handler: transmute(find(c"XML_SetEntityDeclHandler")?),
                parse: transmute(find(c"XML_Parse")?),
            })
        }
    }

    /// A parser that is used again and again.
    pub fn parser(&self) -> Parser {
        // SAFETY: no encoding is named.
        unsafe { (self.create)(null()) }
    }

    /// Copies the document's declarations, by a parser that is made for it.
    pub fn read(&self, document: &[u8], copies: &mut Copies) {
        let parser = self.parser();
        self.read_by(parser, document, copies);
        // SAFETY: it was made above.
        unsafe { (self.free)(parser) };
    }

    /// The same by a parser that has read others.
    pub fn read_again(&self, parser: Parser, document: &[u8], copies: &mut Copies) {
        // SAFETY: it was made by `parser`, and has ended its document.
        unsafe { (self.reset)(parser, null()) };
        self.read_by(parser, document, copies);
    }

    fn read_by(&self, parser: Parser, document: &[u8], copies: &mut Copies) {
        copies.bytes.clear();
        copies.count = 0;
        // SAFETY: the copies and the document are there until it has been parsed.
        let status = unsafe {
            (self.set_user_data)(parser, (copies as *mut Copies).cast());
            (self.set_handler)(parser, copy);
            (self.parse)(parser, document.as_ptr().cast(), document.len() as c_int, 1)
        };
        assert_eq!(status, 1, "expat takes the document");
    }
}
