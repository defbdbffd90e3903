//! The Rust under test, unchanged; ../build.rs says where it comes from. Not every part of it has a caller.
#![allow(dead_code, clippy::all)]

use std::borrow::Cow; // stands above the part of lib.rs that is cut out

include!(concat!(env!("OUT_DIR"), "/source.rs"));
