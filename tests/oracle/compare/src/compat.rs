//! This library's answers by the same calls: nothing but the `use` is another.

use hulemartob::compat as names;

#[path = "calls.rs"]
mod calls;

pub use calls::*;
