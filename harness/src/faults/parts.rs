//! What a call is lent, as slices: such even where the pointer is NULL.

use crate::lent::Lent;
use crate::table::Table;

pub unsafe fn bytes<'a>(start: *const u8, length: usize) -> &'a [u8] {
    match length {
        0 => &[],
        _ => std::slice::from_raw_parts(start, length),
    }
}

pub unsafe fn text(lent: &Lent) -> &[u8] {
    bytes(lent.text, lent.text_length)
}

pub unsafe fn table(lent: &Lent) -> Table<'_> {
    Table {
        list: bytes(lent.list, lent.list_length),
        pool: bytes(lent.pool, lent.pool_length),
    }
}
