//! Reads streams in pieces, and prints how many rows each batch has, and how each stream ended or
//! why it is refused.
//!
//! A line of standard input has the size of the pieces, seven limits and a stream in hexadecimal
//! digits. After each stream an empty line is printed.

use arrowstream::{Batch, Buffer, Error, Layout, Limits, Reader, DICTIONARY};
use std::io::{stdin, BufRead, Read, Result};

struct Pieces<'a> {
    bytes: &'a [u8],
    size: usize,
}

impl Read for Pieces<'_> {
    fn read(&mut self, room: &mut [u8]) -> Result<usize> {
        let count = self.size.min(room.len());
        self.bytes.read(&mut room[..count])
    }
}

// Copies each buffer of a column and of those below it, and checks their lengths.
fn copy_all(batch: &Batch, path: &mut Vec<u64>) {
    let column = batch.column(path).expect("a column");
    for (buffer, length) in [
        (Buffer::Validity, column.validity),
        (Buffer::Offsets, column.offsets),
        (Buffer::Values, column.values),
    ] {
        assert_eq!(batch.buffer(path, buffer).expect("a buffer").len(), length);
    }
    let values = matches!(column.layout, Layout::Indices { .. }).then_some(DICTIONARY);
    for step in (0..column.children as u64).chain(values) {
        path.push(step);
        if batch.column(path).is_some() {
            copy_all(batch, path);
        }
        path.pop();
    }
}

fn answer(stream: Pieces<'_>, limits: &Limits) -> std::result::Result<(), Error> {
    let mut reader = Reader::open(stream, limits)?;
    for batch in &mut reader {
        let batch = batch?;
        println!("batch {}", batch.rows());
        for column in 0..batch.columns() as u64 {
            copy_all(&batch, &mut vec![column]);
        }
    }
    println!("end {}", format!("{:?}", reader.end().expect("an end")).to_lowercase());
    Ok(())
}

fn bytes_of(digits: &str) -> Vec<u8> {
    let pairs = digits.as_bytes().chunks(2).map(|it| std::str::from_utf8(it).expect("digits"));
    pairs.map(|it| u8::from_str_radix(it, 16).expect("digits")).collect()
}

fn main() {
    for line in stdin().lock().lines() {
        let line = line.expect("a line");
        let mut words = line.split(' ');
        let mut number = || words.next().expect("a word").parse::<u64>().expect("a number");
        let size = number() as usize;
        let limits = Limits {
            metadata: number(),
            body: number(),
            slots: number(),
            fields: number(),
            depth: number(),
            text: number(),
            pairs: number(),
        };
        let bytes = bytes_of(words.next().unwrap_or_default());
        if let Err(error) = answer(Pieces { bytes: &bytes, size }, &limits) {
            println!("refused {error}");
        }
        println!();
    }
}
