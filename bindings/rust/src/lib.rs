//! Reads and writes Apache Arrow IPC streams by a library whose memory safety and answers are
//! proved (`include/arrowstream.h`).
//!
//! ```
//! use arrowstream::{Buffer, Limits, Reader};
//! # fn main() -> Result<(), Box<dyn std::error::Error>> {
//! # let path = std::env::var("ARROWSTREAM_SAMPLES")? + "/int32.arrows";
//! let mut reader = Reader::open(std::fs::File::open(path)?, &Limits::standard())?;
//! for batch in &mut reader {
//!     let batch = batch?;
//!     let column = batch.column(&[0]).ok_or("no columns")?;
//!     assert_eq!((batch.rows(), column.nulls), (3, 1));
//!     let numbers = batch.numbers::<i32>(&[0]).ok_or("no numbers")?;
//!     assert_eq!((numbers[0], numbers.len()), (1, 3));
//!     let values = batch.buffer(&[0], Buffer::Values).ok_or("no columns")?;
//!     assert_eq!(&values[..4], &1i32.to_le_bytes());
//! }
//! # Ok(())
//! # }
//! ```
//!
//! A stream that is refused is an error with the number and the line of the refusal:
//!
//! ```
//! use arrowstream::{Error, Limits, Reader};
//! match Reader::open(&b"PK.."[..], &Limits::standard()) {
//!     Err(Error::Refused { number, line }) => {
//!         assert_eq!((number, line.as_str()), (1, "F1 NotContinued at message 0"));
//!     }
//!     _ => unreachable!(),
//! }
//! ```
//!
//! A table is written row by row, or batch by batch from a stream that was read. Here is both:
//!
//! ```
//! use arrowstream::{Cell, Limits, Reader, Writer};
//! # fn main() -> Result<(), Box<dyn std::error::Error>> {
//! # let path = std::env::var("ARROWSTREAM_SAMPLES")? + "/orders.json";
//! let schema = std::fs::read_to_string(path)?;
//! let mut writer = Writer::open(Vec::new(), &schema, &Limits::standard())?;
//! let tags = [Cell::Text("new"), Cell::Null];
//! let address = [Cell::Text("Elm Street"), Cell::Int(3)];
//! writer.row(&[Cell::Int(1), Cell::Text("Ann"), Cell::List(&tags), Cell::Struct(&address)])?;
//! writer.row(&[Cell::Int(2), Cell::Null, Cell::List(&[]), Cell::Null])?;
//! let stream = writer.finish()?;
//!
//! let mut reader = Reader::open(&stream[..], &Limits::standard())?;
//! let mut copy = Writer::open(Vec::new(), reader.schema(), &Limits::standard())?;
//! for batch in &mut reader {
//!     copy.write_batch(&batch?)?;
//! }
//! assert_eq!(copy.finish()?, stream);
//! # Ok(())
//! # }
//! ```
//!
//! A row that does not fit its schema is refused with its number and the path to the value:
//!
//! ```
//! use arrowstream::{Cell, Error, Limits, Writer};
//! # fn main() -> Result<(), Box<dyn std::error::Error>> {
//! let schema = r#"{"metadata":[],"fields":[{"name":"a","type":["int",8],"nullable":true,
//!     "children":0,"dictionary":null,"metadata":[]}]}"#;
//! let mut writer = Writer::open(Vec::new(), schema, &Limits::standard())?;
//! writer.row(&[Cell::Int(127)])?;
//! match writer.row(&[Cell::Int(128)]) {
//!     Err(Error::Refused { number, line }) => {
//!         assert_eq!((number, line.as_str()), (104, "W4 OutOfRange at row 1 path 0"));
//!     }
//!     _ => unreachable!(),
//! }
//! # Ok(())
//! # }
//! ```
//!
//! A batch is handed to another Arrow library, and taken from one, by the Arrow C data interface:
//!
//! ```
//! use arrowstream::{Exporter, Limits, Reader, Writer};
//! # fn main() -> Result<(), Box<dyn std::error::Error>> {
//! # let path = std::env::var("ARROWSTREAM_SAMPLES")? + "/int32.arrows";
//! let mut reader = Reader::open(std::fs::File::open(path)?, &Limits::standard())?;
//! let mut exporter = Exporter::open(reader.schema())?;
//! let schema = exporter.schema()?;
//! let mut writer = Writer::open_for(Vec::new(), &schema, &Limits::standard())?;
//! for batch in &mut reader {
//!     let array = exporter.batch(&batch?)?;
//!     // SAFETY: the array is one of this schema.
//!     unsafe { writer.write_array(&schema, &array)? };
//! }
//! assert_eq!(Reader::open(&writer.finish()?[..], &Limits::standard())?.count(), 1);
//! # Ok(())
//! # }
//! ```
#![warn(missing_docs)]

mod batch;
mod cdata;
mod error;
mod ffi;
mod reader;
mod writer;

pub use batch::{Batch, Buffer, Column, Layout, Number, DICTIONARY};
pub use cdata::{ArrowArray, ArrowSchema, Exporter};
pub use error::Error;
pub use reader::{End, Limits, Reader};
pub use writer::{Cell, Writer};
