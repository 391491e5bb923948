//! Batches that are handed on by the Arrow C data interface, and taken back.

use arrowstream::{ArrowArray, ArrowSchema, Cell, Error, Exporter, Limits, Reader, Writer};

const SCHEMA: &str = r#"{"metadata":[],"fields":[{"name":"a","type":["utf8"],"nullable":true,
    "children":0,"dictionary":[7,["int",8],false],"metadata":[["key","value"]]}]}"#;

fn stream(texts: &[Option<&str>]) -> Vec<u8> {
    let mut writer = Writer::open(Vec::new(), SCHEMA, &Limits::standard()).expect("a schema");
    for text in texts {
        writer.row(&[text.map_or(Cell::Null, Cell::Text)]).expect("a row");
    }
    writer.send().expect("a batch");
    writer.finish().expect("a stream")
}

#[test]
fn moved_arrays_outlive_what_made_them() {
    let bytes = stream(&[Some("b"), None, Some("b"), Some("a")]);
    let (moved, schema) = {
        let mut reader = Reader::open(&bytes[..], &Limits::standard()).expect("a stream");
        let mut exporter = Exporter::open(reader.schema()).expect("an exporter");
        let batch = reader.next().expect("a batch").expect("a batch");
        let mut array = exporter.batch(&batch).expect("an array");
        let mut schema = exporter.schema().expect("a schema");
        // SAFETY: neither is released, and the array is of this schema.
        unsafe {
            (ArrowArray::from_raw(array.as_mut_ptr()), ArrowSchema::from_raw(schema.as_mut_ptr()))
        }
    };
    let mut writer = Writer::open_for(Vec::new(), &schema, &Limits::standard()).expect("a schema");
    writer.row(&[Cell::Text("first")]).expect("a row");
    // SAFETY: the array is of this schema.
    unsafe { writer.write_array(&schema, &moved) }.expect("a batch");
    let copy = writer.finish().expect("a stream");
    let batches = Reader::open(&copy[..], &Limits::standard()).expect("a stream");
    let rows: Vec<usize> = batches.map(|batch| batch.expect("a batch").rows()).collect();
    assert_eq!(rows, [1, 4]);
}

#[test]
fn a_row_that_does_not_fit_is_refused_with_its_number() {
    let bytes = stream(&[Some("a"), None]);
    let mut reader = Reader::open(&bytes[..], &Limits::standard()).expect("a stream");
    let mut exporter = Exporter::open(reader.schema()).expect("an exporter");
    let batch = reader.next().expect("a batch").expect("a batch");
    let (schema, array) =
        (exporter.schema().expect("a schema"), exporter.batch(&batch).expect("an array"));
    let strict = SCHEMA.replace("true", "false");
    let mut writer = Writer::open(Vec::new(), &strict, &Limits::standard()).expect("a schema");
    // SAFETY: the array is of this schema.
    match unsafe { writer.write_array(&schema, &array) } {
        Err(Error::Refused { number, line }) => {
            assert_eq!((number, line.as_str()), (105, "W5 NullNotAllowed at row 1 path 0"));
        }
        other => panic!("{other:?}"),
    }
    assert!(writer.finish().is_ok());
}

#[test]
fn a_name_with_a_zero_byte_has_no_schema_in_c() {
    let schema = SCHEMA.replace(r#""name":"a""#, r#""name":"a\u0000""#);
    match Exporter::open(&schema) {
        Err(Error::Exchange { line }) => {
            assert_eq!(line, "a name or a time zone has a zero byte");
        }
        other => panic!("{other:?}"),
    }
}
