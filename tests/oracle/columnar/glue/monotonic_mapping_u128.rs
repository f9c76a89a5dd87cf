//! GLUE: the 128-bit mapping is not at hand; only its trait is mentioned.
#![allow(missing_docs)]

use std::fmt::Debug;

pub trait MonotonicallyMappableToU128: 'static + PartialOrd + Copy + Debug + Send + Sync {
    const IS_IDENTITY: bool = false;
    fn to_u128(self) -> u128;
    fn from_u128(val: u128) -> Self;
}
