//! The HAS box in plain Rust, written from document 01 and the ICD alone.
//! "01" is document 01, "ICD" is the Galileo HAS SIS ICD, issue 1.0.

#![forbid(unsafe_code)]

pub mod bits;
pub mod calls;
pub mod code;
pub mod collector;
pub mod field;
pub mod image;
pub mod inputs;
pub mod page;
pub mod reader;
pub mod records;
pub mod refusal;
pub mod time;
pub mod writer;
