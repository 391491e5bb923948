//! Prints the schema of a stream, and of each batch the rows, columns and nulls.
//!
//!     cargo run --example columns FILE

use arrowstream::{Limits, Reader};
use std::{env, error::Error, fs::File};

fn main() -> Result<(), Box<dyn Error>> {
    let path = env::args().nth(1).ok_or("usage: columns FILE")?;
    let mut reader = Reader::open(File::open(path)?, &Limits::standard())?;
    println!("{}", reader.schema());
    for batch in &mut reader {
        let batch = batch?;
        println!("{} rows", batch.rows());
        for number in 0..batch.columns() as u64 {
            if let Some(column) = batch.column(&[number]) {
                println!("  column {number}: {:?}, {} nulls", column.layout, column.nulls);
            }
        }
    }
    println!("end: {:?}", reader.end());
    Ok(())
}
