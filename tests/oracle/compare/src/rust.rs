//! The Rust's answers.

use columnar as names;

#[path = "calls.rs"]
mod calls;

pub use calls::*;
