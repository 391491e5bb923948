//! Readers, writers and batches that change their thread.

use arrowstream::{Batch, Buffer, Cell, Limits, Reader, Writer, DICTIONARY};
use std::thread;

// One column of texts with a dictionary.
const SCHEMA: &str = r#"{"metadata":[],"fields":[{"name":"a","type":["utf8"],"nullable":true,
    "children":0,"dictionary":[1,["int",8],false],"metadata":[]}]}"#;

// A stream of this many batches of one row.
fn stream(batches: usize) -> Vec<u8> {
    let mut writer = Writer::open(Vec::new(), SCHEMA, &Limits::standard()).expect("a writer");
    for number in 0..batches {
        writer.row(&[Cell::Text(&number.to_string())]).expect("a row");
        writer.send().expect("a batch");
    }
    writer.finish().expect("a stream")
}

#[test]
fn batches_are_read_while_the_reader_goes_on() {
    const BATCHES: usize = 200;
    let stream = stream(BATCHES);
    let mut reader = Reader::open(&stream[..], &Limits::standard()).expect("a reader");
    let texts = thread::scope(|scope| {
        let threads: Vec<_> = (&mut reader)
            .map(|batch| {
                let batch = batch.expect("a batch");
                scope.spawn(move || batch.buffer(&[0, DICTIONARY], Buffer::Values))
            })
            .collect();
        let texts = threads.into_iter().map(|thread| thread.join().expect("a thread"));
        texts.collect::<Option<Vec<_>>>()
    });
    let wanted = (0..BATCHES).map(|number| number.to_string().into_bytes());
    // A dictionary holds the values of its batch alone, and its buffer may have padding.
    for (text, wanted) in texts.expect("values").iter().zip(wanted) {
        assert!(text.starts_with(&wanted));
    }
}

#[test]
fn readers_and_writers_change_their_thread() {
    let mut writer = Writer::open(Vec::new(), SCHEMA, &Limits::standard()).expect("a writer");
    writer.row(&[Cell::Text("first")]).expect("a row");
    let mut writer = thread::spawn(move || {
        writer.send().expect("a batch");
        writer
    })
    .join()
    .expect("a thread");
    writer.row(&[Cell::Text("second")]).expect("a row");
    let stream = thread::spawn(move || writer.finish().expect("a stream"));
    let stream = stream.join().expect("a thread");
    let mut reader = Reader::open(&stream[..], &Limits::standard()).expect("a reader");
    let first = reader.next().expect("a batch").expect("a batch");
    let rest = thread::scope(|scope| {
        scope
            .spawn(move || reader.map(|batch| batch.expect("a batch").rows()).sum::<usize>())
            .join()
            .expect("a thread")
    });
    assert_eq!((first.rows(), rest), (1, 1));
}

#[test]
fn clones_of_a_batch_are_read_at_the_same_time() {
    let stream = stream(1);
    let mut reader = Reader::open(&stream[..], &Limits::standard()).expect("a reader");
    let batch = reader.next().expect("a batch").expect("a batch");
    let copy = batch.try_clone().expect("a clone");
    let read = |batch: Batch| {
        (0..1000).map(|_| batch.buffer(&[0, DICTIONARY], Buffer::Values)).collect::<Vec<_>>()
    };
    let (first, second) = thread::scope(|scope| {
        let first = scope.spawn(move || read(batch));
        let second = scope.spawn(move || read(copy));
        (first.join().expect("a thread"), second.join().expect("a thread"))
    });
    assert!(first.iter().chain(&second).all(|values| *values == first[0] && values.is_some()));
}
