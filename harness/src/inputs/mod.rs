//! What several calls are tried on.

pub mod attribute;
pub mod big_tables;
pub mod entities;
pub mod external;
pub mod marked;
pub mod memory;
pub mod name_hash;
pub mod number;
pub mod rooms;
pub mod sequences;
pub mod sizes;
pub mod spoiled;
pub mod strict;
pub mod strict_rows;
pub mod tables;
pub mod text;
pub mod woven;
