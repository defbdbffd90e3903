//! The calls that are compared, each declared in a folder of its own.

pub mod c14n;
pub mod canonical_form;
pub mod cdata_next;
pub mod check_table;
pub mod check_utf8;
pub mod escape;
pub mod least_depth;
pub mod next_nmtoken;
pub mod normalize_attribute_value;
pub mod normalize_eols;
pub mod normalize_nmtokens;
pub mod parse_number;
pub mod read_declarations;
pub mod register;
pub mod rehearse;
pub mod trim_xml;
pub mod unescape;

use crate::call::Call;

pub static CALLS: &[Call] = &[
    check_utf8::CALL,
    parse_number::CALL,
    escape::CALL,
    normalize_eols::CALL,
    trim_xml::START,
    trim_xml::END,
    trim_xml::SPACES,
    cdata_next::CALL,
    check_table::CALL,
    unescape::CALL,
    normalize_attribute_value::CALL,
    canonical_form::CALL,
    normalize_attribute_value::STRICT,
    canonical_form::STRICT,
    normalize_nmtokens::CALL,
    next_nmtoken::CALL,
    register::ADD,
    register::WITHDRAW,
    register::COUNT,
    c14n::ATTRIBUTE,
    c14n::TEXT,
    least_depth::CALL,
    read_declarations::CALL,
    rehearse::CALL,
];

/// The calls of these names, or all where none is named; nothing if one is unknown.
pub fn named(names: &[&str]) -> Option<Vec<&'static Call>> {
    if names.is_empty() {
        return Some(CALLS.iter().collect());
    }
    let find = |name: &&str| CALLS.iter().find(|call| call.name == *name);
    names.iter().map(find).collect()
}
