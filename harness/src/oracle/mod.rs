//! What calls have to answer, as far as several share it: the answers of the unchanged Rust, by document 01's numbers, and those of the
//! documents' own reading.

pub mod checks;
pub mod entities;
pub mod reading;
pub mod result;
pub mod text;
