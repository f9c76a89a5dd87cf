//! Lists the rows of the column in a file, as values of a kind, which the bytes do not tell:
//!
//!     cargo run --offline --example rows ../../docs/example.column [u64 | i64 | date | bool | f64]

use std::error::Error;
use std::fs;

use hulemartob::{Column, Date, Kind, Value};

fn list<T: Value>(column: Column<T, Vec<u8>>) {
    println!("{column:?}: {:?} to {:?}", column.minimum(), column.maximum());
    for (row, value) in column.iter().enumerate() {
        match value {
            Ok(value) => println!("{row} {value:?}"),
            Err(error) => println!("{row} {error}"),
        }
    }
}

fn main() -> Result<(), Box<dyn Error>> {
    let mut words = std::env::args().skip(1);
    let file = words.next().ok_or("which file?")?;
    let kind = words.next().map_or(Ok(Kind::U64), |word| word.parse())?;
    let column = Column::open(fs::read(file)?)?;
    match kind {
        Kind::U64 => list(column),
        Kind::I64 => list(column.typed::<i64>()),
        Kind::Date => list(column.typed::<Date>()),
        Kind::Bool => list(column.typed::<bool>()),
        Kind::F64 => list(column.typed::<f64>()),
    }
    Ok(())
}
