//! Judging columns without golden files.

mod differ;
mod judge;
mod lists;
mod report;
mod run;

pub use judge::{Asked, Judgement, Scratch, Verdict, judge, rewritten};
pub use run::run;
