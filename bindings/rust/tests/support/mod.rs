//! Shared by the tests: the tables of bindings/tables, a slow model of packing and reading, seeded texts, memory between guard
//! pages, the reads with one shape.

#![allow(dead_code)] // each test file uses a part

pub mod guard;
pub mod model;
pub mod random;
pub mod reads;
pub mod table;
