//! Streams that are written batch by batch.

use crate::reader::text_of;
use crate::{ffi, Batch, Error, Limits};
use std::io::Write;
use std::ptr::{null_mut, NonNull};

const PIECE: usize = 1 << 16;
// No schema nests fields deeper (`Limits::depth`).
const DEPTH: usize = 64;

/// A value of a row, of the kind that the type of its field stores (`docs/SCHEMA.md`). The value of
/// a field with a dictionary is one of the dictionary's values.
#[derive(Clone, Copy, Debug, PartialEq, Eq)]
pub enum Cell<'a> {
    /// Null.
    Null,
    /// A boolean.
    Bool(bool),
    /// A signed integer, date, time, timestamp or duration, in the unit of its type.
    Int(i64),
    /// An unsigned integer.
    Uint(u64),
    /// Bytes, of any or of a fixed length.
    Bytes(&'a [u8]),
    /// A text.
    Text(&'a str),
    /// The items of a list, or of a list of a fixed size.
    List(&'a [Cell<'a>]),
    /// The members of a struct: one for each child of its field.
    Struct(&'a [Cell<'a>]),
}

/// A stream that is written to `sink`. It may move to another thread if the sink may.
///
/// Bytes are written as each batch is sent, so memory holds one batch. If the writer is dropped
/// before [`Writer::finish`], the stream ends without its end-of-stream mark.
///
/// After [`Error::Write`] and [`Error::OutOfMemory`] the writer has ended: each later call is
/// refused as W10.
#[derive(Debug)]
pub struct Writer<W> {
    sink: W,
    writer: Handle,
    room: Vec<u8>,
    waiting: bool,
    failed: bool,
}

// A writer of the library that was not freed.
pub(crate) type RawWriter = *mut ffi::Writer;

// The library's writer.
#[derive(Debug)]
struct Handle(NonNull<ffi::Writer>);

// SAFETY: any thread may use a writer, by one call at a time.
unsafe impl Send for Handle {}

impl Drop for Handle {
    fn drop(&mut self) {
        // SAFETY: the writer was not freed, and is not used after.
        unsafe { ffi::arrowstream_writer_free(self.0.as_ptr()) }
    }
}

impl<W: Write> Writer<W> {
    /// Begins a stream of the schema that the JSON text states, in the form of `docs/SCHEMA.md`:
    /// that of [`crate::Reader::schema`], for example. All that is written is within the limits.
    ///
    /// Errors: X6 if the text states no schema, W1 or W6 if the schema breaks a rule or a limit.
    pub fn open(sink: W, schema: &str, limits: &Limits) -> Result<Writer<W>, Error> {
        let mut stream = Writer::new(sink, limits)?;
        // SAFETY: the writer was not freed; `schema` has this length.
        stream.call(|writer| unsafe {
            ffi::arrowstream_writer_schema(writer, schema.as_ptr(), schema.len())
        })?;
        stream.flush()?;
        Ok(stream)
    }

    // A writer without a schema.
    fn new(sink: W, limits: &Limits) -> Result<Writer<W>, Error> {
        let mut writer = null_mut();
        // SAFETY: `writer` may be written.
        unsafe { ffi::arrowstream_writer_open(&ffi::Limits::new(*limits), &mut writer) };
        let writer = Handle(NonNull::new(writer).ok_or(Error::OutOfMemory)?);
        Ok(Writer { sink, writer, room: vec![0; PIECE], waiting: false, failed: false })
    }

    // Begins a stream by a call that gives the library the schema.
    pub(crate) fn begin(
        sink: W,
        limits: &Limits,
        schema: impl FnOnce(RawWriter) -> Result<(), Error>,
    ) -> Result<Writer<W>, Error> {
        let mut stream = Writer::new(sink, limits)?;
        schema(stream.writer.0.as_ptr())?;
        stream.flush()?;
        Ok(stream)
    }

    // Sends what waits, and then a batch by a call of the library.
    pub(crate) fn send_by(
        &mut self,
        send: impl FnOnce(RawWriter) -> Result<(), Error>,
    ) -> Result<(), Error> {
        if self.waiting {
            self.send()?;
        }
        // The call is refused if the writer has failed.
        self.call(|_| ffi::OK)?;
        send(self.writer.0.as_ptr())?;
        self.flush()
    }

    /// Adds a row to those that wait for [`Writer::send`]. It has a cell for each column.
    ///
    /// Errors: W2 to W5 if the row does not fit the schema. Then it is dropped, and the writer is
    /// as it was.
    pub fn row(&mut self, cells: &[Cell<'_>]) -> Result<(), Error> {
        for cell in cells {
            self.add(cell, 0)?;
        }
        // SAFETY: the writer was not freed.
        self.call(|writer| unsafe { ffi::arrowstream_writer_row(writer) })?;
        self.waiting = true;
        Ok(())
    }

    /// Adds a pair of key and value to the metadata of the batch that [`Writer::send`] sends next.
    /// A key may occur more than once.
    pub fn pair(&mut self, key: &str, value: &str) -> Result<(), Error> {
        // SAFETY: the writer was not freed; `key` and `value` have these lengths.
        self.call(|writer| unsafe {
            let (key, value) = (key.as_bytes(), value.as_bytes());
            ffi::arrowstream_writer_pair(
                writer,
                key.as_ptr(),
                key.len(),
                value.as_ptr(),
                value.len(),
            )
        })?;
        self.waiting = true;
        Ok(())
    }

    /// Sends the rows and pairs that wait as one batch. There may be none.
    ///
    /// Errors: W6 to W8 if the batch does not fit its limits or a dictionary. Then the rows and
    /// pairs are dropped.
    pub fn send(&mut self) -> Result<(), Error> {
        self.waiting = false;
        // SAFETY: the writer was not freed.
        self.call(|writer| unsafe { ffi::arrowstream_writer_send(writer) })?;
        self.flush()
    }

    /// Sends the columns and pairs of a batch that was read. Rows and pairs that wait are sent
    /// before it, as a batch of their own.
    ///
    /// Errors: W2 to W8 if the batch does not fit the schema or the limits. Then nothing of it is
    /// written, and the writer goes on.
    pub fn write_batch(&mut self, batch: &Batch) -> Result<(), Error> {
        if self.waiting {
            self.send()?;
        }
        // SAFETY: neither the writer nor the batch was freed.
        self.call(|writer| unsafe { ffi::arrowstream_writer_columns(writer, batch.as_ptr()) })?;
        self.flush()
    }

    /// Sends the rows and pairs that wait, if there are any, and the end-of-stream mark. Flushes the
    /// sink, and returns it.
    pub fn finish(mut self) -> Result<W, Error> {
        if self.waiting {
            self.send()?;
        }
        // SAFETY: the writer was not freed.
        self.call(|writer| unsafe { ffi::arrowstream_writer_finish(writer) })?;
        self.flush()?;
        self.sink.flush().map_err(Error::Write)?;
        Ok(self.sink)
    }

    // Adds a cell inside `depth` lists and structs.
    fn add(&mut self, cell: &Cell<'_>, depth: usize) -> Result<(), Error> {
        // SAFETY, of each call: the writer was not freed; `bytes` and `text` have these lengths.
        match *cell {
            // The row is refused at a cell above, whatever this one is.
            Cell::List(_) | Cell::Struct(_) if depth == DEPTH => self.add(&Cell::Null, depth),
            Cell::Null => self.call(|it| unsafe { ffi::arrowstream_writer_null(it) }),
            Cell::Bool(value) => {
                self.call(|it| unsafe { ffi::arrowstream_writer_bool(it, value.into()) })
            }
            Cell::Int(value) => self.call(|it| unsafe { ffi::arrowstream_writer_int(it, value) }),
            Cell::Uint(value) => self.call(|it| unsafe { ffi::arrowstream_writer_uint(it, value) }),
            Cell::Bytes(bytes) => self.call(|it| unsafe {
                ffi::arrowstream_writer_bytes(it, bytes.as_ptr(), bytes.len())
            }),
            Cell::Text(text) => self
                .call(|it| unsafe { ffi::arrowstream_writer_text(it, text.as_ptr(), text.len()) }),
            Cell::List(cells) => self.nest(ffi::arrowstream_writer_begin_list, cells, depth),
            Cell::Struct(cells) => self.nest(ffi::arrowstream_writer_begin_struct, cells, depth),
        }
    }

    // Adds a list or a struct, which `begin` begins.
    fn nest(
        &mut self,
        begin: unsafe extern "C" fn(*mut ffi::Writer) -> u32,
        cells: &[Cell<'_>],
        depth: usize,
    ) -> Result<(), Error> {
        // SAFETY: the writer was not freed.
        self.call(|writer| unsafe { begin(writer) })?;
        for cell in cells {
            self.add(cell, depth + 1)?;
        }
        // SAFETY: the writer was not freed.
        self.call(|writer| unsafe { ffi::arrowstream_writer_end(writer) })
    }

    // Calls the library, and returns the error of the status.
    fn call(&mut self, call: impl FnOnce(*mut ffi::Writer) -> u32) -> Result<(), Error> {
        if self.failed {
            return Err(Error::Refused { number: ffi::WRITE_FAILED, line: "W10 Failed".into() });
        }
        let writer = self.writer.0.as_ptr();
        match call(writer) {
            ffi::OK => Ok(()),
            ffi::WRITE_NO_ROOM | ffi::WRITE_OUT_OF_MEMORY => Err(Error::OutOfMemory),
            number => {
                // SAFETY: the writer was not freed; `text` has `length` bytes.
                let line = text_of(|text, length, wanted| unsafe {
                    ffi::arrowstream_writer_line(writer, text, length, wanted)
                })?;
                Err(Error::Refused { number, line: line.unwrap_or_default() })
            }
        }
    }

    // Writes the bytes that are ready to the sink.
    fn flush(&mut self) -> Result<(), Error> {
        loop {
            // SAFETY: the writer was not freed; `room` has this length.
            let count = unsafe {
                let room = &mut self.room;
                ffi::arrowstream_writer_take(self.writer.0.as_ptr(), room.as_mut_ptr(), room.len())
            };
            if count == 0 {
                return Ok(());
            }
            self.sink.write_all(&self.room[..count]).map_err(|cause| {
                self.failed = true;
                Error::Write(cause)
            })?;
        }
    }
}

#[cfg(test)]
mod tests {
    use super::*;

    #[test]
    fn want_of_memory_is_no_refusal() {
        let schema = r#"{"metadata":[],"fields":[]}"#;
        for status in [ffi::WRITE_NO_ROOM, ffi::WRITE_OUT_OF_MEMORY] {
            let writer = Writer::open(Vec::new(), schema, &Limits::standard());
            let answer = writer.expect("a writer").call(|_| status);
            assert!(matches!(answer, Err(Error::OutOfMemory)));
        }
    }
}
