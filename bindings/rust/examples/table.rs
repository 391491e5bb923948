//! Writes a table.
//!
//!     cargo run --example table FILE

use arrowstream::{Cell, Limits, Writer};
use std::{env, error::Error, fs::File};

const SCHEMA: &str = r#"{"metadata":[],"fields":[
{"name":"name","type":["utf8"],"nullable":true,"children":0,"dictionary":null,"metadata":[]},
{"name":"cents","type":["int",64],"nullable":false,"children":0,"dictionary":null,"metadata":[]}
]}"#;

fn main() -> Result<(), Box<dyn Error>> {
    let path = env::args().nth(1).ok_or("usage: table FILE")?;
    let mut writer = Writer::open(File::create(path)?, SCHEMA, &Limits::standard())?;
    for (name, cents) in [(Some("bread, dark"), 325), (None, -10), (Some("milk"), 119)] {
        writer.row(&[name.map_or(Cell::Null, Cell::Text), Cell::Int(cents)])?;
    }
    writer.finish()?;
    Ok(())
}
