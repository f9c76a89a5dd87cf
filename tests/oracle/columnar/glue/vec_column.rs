//! GLUE: the crate's vec_column.rs is not at hand.

use std::fmt::Debug;

use super::ColumnValues;

/// A column over a vector.
pub struct VecColumn<T = u64>(Vec<T>);

impl<T: Copy + PartialOrd + Default + Debug + Send + Sync + 'static> ColumnValues<T> for VecColumn<T> {
    fn get_val(&self, idx: u32) -> T {
        self.0[idx as usize]
    }

    fn min_value(&self) -> T {
        self.0.iter().copied().reduce(|a, b| if b < a { b } else { a }).unwrap_or_default()
    }

    fn max_value(&self) -> T {
        self.0.iter().copied().reduce(|a, b| if b > a { b } else { a }).unwrap_or_default()
    }

    fn num_vals(&self) -> u32 {
        self.0.len() as u32
    }
}

impl<T> From<Vec<T>> for VecColumn<T> {
    fn from(values: Vec<T>) -> VecColumn<T> {
        VecColumn(values)
    }
}

impl<T> From<VecColumn<T>> for Vec<T> {
    fn from(column: VecColumn<T>) -> Vec<T> {
        column.0
    }
}
