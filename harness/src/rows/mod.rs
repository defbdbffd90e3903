//! Rows of the benchmark and of the table of instructions, as far as several calls share how they are made.

pub mod attribute;
pub mod many_names;
pub mod output;
pub mod table;
pub mod text;
