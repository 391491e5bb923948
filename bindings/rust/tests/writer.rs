//! Refusals of the writer, and sinks that fail.

use arrowstream::{Cell, Error, Limits, Reader, Writer};
use std::io::{self, Write};

const INT8: &str = r#"["int",8]"#;

// A field named "a" as JSON.
fn field(kind: &str, nullable: bool, children: usize, dictionary: &str) -> String {
    format!(
        r#"{{"name":"a","type":{kind},"nullable":{nullable},"children":{children},
        "dictionary":{dictionary},"metadata":[]}}"#
    )
}

fn schema(fields: &[String]) -> String {
    format!(r#"{{"metadata":[],"fields":[{}]}}"#, fields.join(","))
}

fn open(fields: &[String], limits: &Limits) -> Writer<Vec<u8>> {
    Writer::open(Vec::new(), &schema(fields), limits).expect("a writer")
}

fn refusal(result: Result<(), Error>) -> (u32, String) {
    match result {
        Err(Error::Refused { number, line }) => (number, line),
        other => panic!("{other:?}"),
    }
}

// The refusal of the second row, which is dropped.
fn refused_row(fields: &[String], good: &[Cell], bad: &[Cell]) -> (u32, String) {
    let mut writer = open(fields, &Limits::standard());
    writer.row(good).expect("a row that fits");
    let refused = refusal(writer.row(bad));
    let mut other = open(fields, &Limits::standard());
    other.row(good).expect("a row that fits");
    assert_eq!(writer.finish().expect("a stream"), other.finish().expect("a stream"));
    refused
}

fn line(number: u32, text: &str) -> (u32, String) {
    (number, text.to_owned())
}

#[test]
fn rows_that_do_not_fit() {
    let number = [field(INT8, true, 0, "null")];
    let list = [field(r#"["list"]"#, true, 1, "null"), field(INT8, false, 0, "null")];
    let pair = [field(r#"["struct"]"#, true, 2, "null"), number[0].clone(), number[0].clone()];
    let one = Cell::Int(1);
    for (fields, good, bad, wanted) in [
        (&number[..], one, vec![], line(102, "W2 RowWidth at row 1 path")),
        (&number, one, vec![one, one], line(102, "W2 RowWidth at row 1 path")),
        (&pair, Cell::Null, vec![Cell::Struct(&[one])], line(102, "W2 RowWidth at row 1 path 0")),
        (&number, one, vec![Cell::Uint(1)], line(103, "W3 WrongKind at row 1 path 0")),
        (&number, one, vec![Cell::List(&[])], line(103, "W3 WrongKind at row 1 path 0")),
        (&number, one, vec![Cell::Int(-129)], line(104, "W4 OutOfRange at row 1 path 0")),
        (
            &pair,
            Cell::Struct(&[one, Cell::Null]),
            vec![Cell::Struct(&[one, Cell::Int(128)])],
            line(104, "W4 OutOfRange at row 1 path 0.1"),
        ),
        (
            &list,
            Cell::List(&[one, one]),
            vec![Cell::List(&[one, Cell::Null])],
            line(105, "W5 NullNotAllowed at row 1 path 0.0"),
        ),
    ] {
        assert_eq!(refused_row(fields, &[good], &bad), wanted);
    }
}

#[test]
fn lists_deeper_than_every_schema() {
    let number = [field(INT8, true, 0, "null")];
    let mut nests = vec![Cell::Null];
    for _ in 0..100 {
        let inner: &'static [Cell] = nests.clone().leak();
        nests = vec![Cell::List(inner)];
    }
    let refused = refused_row(&number, &[Cell::Int(1)], &nests);
    assert_eq!(refused, line(103, "W3 WrongKind at row 1 path 0"));
}

#[test]
fn batches_that_do_not_fit() {
    let number = [field(INT8, true, 0, "null")];
    let code = [field(r#"["utf8"]"#, true, 0, r#"[1,["uint",8],false]"#)];
    let standard = Limits::standard();

    let mut writer = open(&number, &Limits { body: 64, ..standard });
    (0..100).for_each(|_| writer.row(&[Cell::Int(1)]).expect("a row"));
    assert_eq!(refusal(writer.send()), line(106, "W6 TooLong"));

    let mut writer = open(&code, &standard);
    for name in 0..257 {
        writer.row(&[Cell::Text(&name.to_string())]).expect("a row");
    }
    assert_eq!(refusal(writer.send()), line(107, "W7 DictionaryFull"));

    let mut writer = open(&number, &Limits { slots: 2, ..standard });
    (0..3).for_each(|_| writer.row(&[Cell::Null]).expect("a row"));
    assert_eq!(refusal(writer.send()), line(108, "W8 TooManyRows"));
    writer.row(&[Cell::Null]).expect("a row");
    writer.finish().expect("a stream");
}

// The pairs of each batch of a stream.
fn pairs(stream: &[u8]) -> Vec<String> {
    let reader = Reader::open(stream, &Limits::standard()).expect("a reader");
    reader.map(|batch| batch.expect("a batch").pairs().expect("pairs")).collect()
}

#[test]
fn pairs_of_batches() {
    let number = [field(INT8, true, 0, "null")];
    let standard = Limits::standard();

    let mut writer = open(&number, &standard);
    writer.pair("key", "value").expect("a pair");
    writer.row(&[Cell::Int(1)]).expect("a row");
    writer.pair("", "key").expect("a pair");
    writer.send().expect("a batch");
    writer.send().expect("a batch without rows");
    writer.pair("key", "last").expect("a pair");
    let stream = writer.finish().expect("a stream");
    assert_eq!(pairs(&stream), [r#"[["key","value"],["","key"]]"#, "[]", r#"[["key","last"]]"#]);

    let mut writer = open(&number, &Limits { pairs: 1, ..standard });
    writer.pair("key", "value").expect("a pair");
    writer.pair("key", "value").expect("a pair");
    assert_eq!(refusal(writer.send()), line(106, "W6 TooLong"));
    assert!(pairs(&writer.finish().expect("a stream")).is_empty());
}

#[test]
fn texts_without_a_schema() {
    for text in ["", "{}", r#"{"metadata":[],"fields":[{}]}"#] {
        let opened = Writer::open(Vec::new(), text, &Limits::standard()).map(drop);
        assert_eq!(refusal(opened), line(206, "X6 BadSchemaJson"));
    }
}

// A sink that fails after `room` bytes.
struct Failing {
    room: usize,
}

impl Write for Failing {
    fn write(&mut self, bytes: &[u8]) -> io::Result<usize> {
        let count = bytes.len().min(self.room);
        self.room -= count;
        if count > 0 {
            Ok(count)
        } else {
            Err(io::Error::other("full"))
        }
    }

    fn flush(&mut self) -> io::Result<()> {
        Ok(())
    }
}

#[test]
fn sinks_that_fail() {
    let fields = [field(INT8, true, 0, "null")];
    let whole = open(&fields, &Limits::standard()).finish().expect("a stream").len();
    let text = schema(&fields);
    for room in 0..whole {
        match Writer::open(Failing { room }, &text, &Limits::standard()) {
            Err(Error::Write(_)) => {}
            Ok(writer) => assert!(matches!(writer.finish(), Err(Error::Write(_)))),
            Err(other) => panic!("{other}"),
        }
    }
    let mut writer =
        Writer::open(Failing { room: whole }, &text, &Limits::standard()).expect("a writer");
    assert!(matches!(writer.send(), Err(Error::Write(_))));
    assert_eq!(refusal(writer.row(&[Cell::Null])), line(110, "W10 Failed"));
    assert_eq!(refusal(writer.send()), line(110, "W10 Failed"));
}
