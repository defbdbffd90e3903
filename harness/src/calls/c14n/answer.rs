//! What W3C Canonical XML 1.0, 2.3, says of attribute nodes and of text nodes, read from its words: one replacement after the other.

use crate::answer::Answer;
use crate::arguments::Arguments;
use crate::oracle::result::written;

pub fn attribute(arguments: &Arguments) -> Answer {
    written(arguments, Some(|text| attribute_value(text).into()))
}

pub fn text(arguments: &Arguments) -> Answer {
    written(arguments, Some(|text| text_node(text).into()))
}

/// Ampersands first, as the others are written with them.
fn attribute_value(value: &str) -> String {
    value
        .replace('&', "&amp;")
        .replace('<', "&lt;")
        .replace('"', "&quot;")
        .replace('\u{9}', "&#x9;")
        .replace('\u{A}', "&#xA;")
        .replace('\u{D}', "&#xD;")
}

fn text_node(text: &str) -> String {
    text.replace('&', "&amp;")
        .replace('<', "&lt;")
        .replace('>', "&gt;")
        .replace('\u{D}', "&#xD;")
}
