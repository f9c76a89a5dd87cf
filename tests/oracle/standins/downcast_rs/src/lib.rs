//! STAND-IN for `downcast_rs`: the names that `column_values/mod.rs` mentions. Nothing is downcast here.

use std::any::Any;

pub trait DowncastSync: Any + Send + Sync {}

impl<T: Any + Send + Sync> DowncastSync for T {}

#[macro_export]
macro_rules! impl_downcast {
    ($($ignored:tt)*) => {};
}
