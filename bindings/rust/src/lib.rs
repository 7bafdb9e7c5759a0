//! The betting core of a card table, proved: rs_poker's table under rs_poker's names.
//!
//! Change `use rs_poker::` to `use peatcloak::`. README.md tells what else is different.

#![warn(missing_docs)]

pub mod arena;
pub mod core;
pub mod journal;
pub mod library;
#[cfg(feature = "parts")]
pub mod parts;
pub mod places;
pub mod script;
pub mod sys;
mod words;
