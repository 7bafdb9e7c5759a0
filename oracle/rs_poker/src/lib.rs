//! This file and the two mod.rs files are ours: they join the carried files of
//! rs_poker 5.1.0, which stand unchanged beside them (`oracle/check-carried`).
//! `Rank`, rand and tokio are stand-ins; only what is left behind names them.

#![feature(isolate_most_least_significant_one)]

pub mod arena;
pub mod core;
