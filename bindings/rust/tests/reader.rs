//! What is read from a source, and when.

use arrowstream::{Buffer, Cell, End, Error, Limits, Reader, Writer};
use std::io::{self, ErrorKind, Read};

const SCHEMA: &str = r#"{"metadata":[],"fields":[{"name":"a","type":["int",64],"nullable":true,
    "children":0,"dictionary":null,"metadata":[]}]}"#;

// A stream of batches with this many rows.
fn stream(batches: &[i64]) -> Vec<u8> {
    let mut writer = Writer::open(Vec::new(), SCHEMA, &Limits::standard()).expect("a writer");
    for &rows in batches {
        (0..rows).for_each(|row| writer.row(&[Cell::Int(row)]).expect("a row"));
        writer.send().expect("a batch");
    }
    writer.finish().expect("a stream")
}

// The rows of each batch of the next stream of a source.
fn rows(source: &mut impl Read) -> Vec<usize> {
    let mut reader = Reader::open(source, &Limits::standard()).expect("a reader");
    let rows = reader.by_ref().map(|batch| batch.expect("a batch").rows()).collect();
    assert_eq!(reader.end(), Some(End::Mark));
    rows
}

#[test]
fn joined_streams_are_read_one_after_the_other() {
    let mut joined = stream(&[1, 20_000]);
    joined.extend(stream(&[3]));
    joined.extend(b"rest");
    let mut source = &joined[..];
    assert_eq!(rows(&mut source), [1, 20_000]);
    assert_eq!(rows(&mut source), [3]);
    assert_eq!(source, b"rest");
}

// A source that has no bytes at every second call after the first three, which read the schema.
struct Waiting<'a> {
    bytes: &'a [u8],
    calls: usize,
}

impl Read for Waiting<'_> {
    fn read(&mut self, room: &mut [u8]) -> io::Result<usize> {
        self.calls += 1;
        if self.calls > 3 && self.calls % 2 == 0 {
            return Err(ErrorKind::WouldBlock.into());
        }
        self.bytes.read(room)
    }
}

#[test]
fn a_source_without_bytes_is_not_at_its_end() {
    let bytes = stream(&[2, 3]);
    let source = Waiting { bytes: &bytes, calls: 0 };
    let mut reader = Reader::open(source, &Limits::standard()).expect("a reader");
    let (mut rows, mut blocked) = (Vec::new(), 0);
    while reader.end().is_none() {
        match reader.next() {
            Some(Ok(batch)) => rows.push(batch.rows()),
            Some(Err(Error::Read(cause))) if cause.kind() == ErrorKind::WouldBlock => blocked += 1,
            Some(Err(other)) => panic!("{other}"),
            None => {}
        }
    }
    assert_eq!(rows, [2, 3]);
    assert!(blocked > 3);
}

#[test]
fn a_body_is_read_into_the_memory_of_a_batch() {
    let bytes = stream(&[1000; 10]);
    let mut reader = Reader::open(&bytes[..], &Limits::standard()).expect("a reader");
    let kept = reader.next().expect("a batch").expect("no refusal");
    let values = kept.buffer(&[0], Buffer::Values);
    let mut rows = kept.rows();
    while let Some(batch) = reader.next() {
        let batch = batch.expect("no refusal");
        assert_eq!(batch.buffer(&[0], Buffer::Values), values);
        rows += batch.rows();
        reader.reuse(batch);
    }
    assert_eq!(rows, 10_000);
    assert_eq!(kept.buffer(&[0], Buffer::Values), values);
    reader.reuse(kept);
}

#[test]
fn numbers_have_the_type_of_their_column() {
    let bytes = stream(&[1000]);
    let mut reader = Reader::open(&bytes[..], &Limits::standard()).expect("a reader");
    let batch = reader.next().expect("a batch").expect("no refusal");
    let values = batch.buffer(&[0], Buffer::Values).expect("values");
    let numbers = batch.numbers::<i64>(&[0]).expect("numbers");
    assert_eq!(numbers.len(), 1000);
    for (number, stored) in numbers.iter().zip(values.chunks_exact(8)) {
        assert_eq!(number.to_le_bytes(), stored);
    }
    assert_eq!(batch.numbers::<u64>(&[0]), None);
    assert_eq!(batch.numbers::<i32>(&[0]), None);
    assert_eq!(batch.numbers::<i64>(&[1]), None);
}
