//! Streams that are read batch by batch.

use crate::{ffi, Batch, Error};
use std::io::{ErrorKind, Read};
use std::mem::ManuallyDrop;
use std::ptr::{null_mut, NonNull};

const PIECE: usize = 1 << 16;
// Room for a text, so that most are made by one call.
const TEXT: usize = 1 << 12;

/// The most that a reader accepts and a writer makes. A value above its maximum counts as the
/// maximum.
#[repr(C)]
#[derive(Clone, Copy, Debug, PartialEq, Eq)]
pub struct Limits {
    /// Bytes of a message's metadata: at most 2^28.
    pub metadata: u64,
    /// Bytes of a message's body: at most 2^42.
    pub body: u64,
    /// Rows of a batch, and slots of a column: at most 2^31 - 1.
    pub slots: u64,
    /// Fields of a schema with their descendants: at most 2^20.
    pub fields: u64,
    /// Nesting of fields: at most 64.
    pub depth: u64,
    /// Bytes of a schema's names, keys, values and timezones: at most 2^30.
    pub text: u64,
    /// Pairs of key and value of a schema, and of a batch: at most 2^24.
    pub pairs: u64,
}

impl Limits {
    /// Returns limits that fit what is written in practice.
    pub fn standard() -> Limits {
        let mut limits = ffi::Limits::new(Limits {
            metadata: 0,
            body: 0,
            slots: 0,
            fields: 0,
            depth: 0,
            text: 0,
            pairs: 0,
        });
        // SAFETY: `limits` may be written.
        unsafe { ffi::arrowstream_limits_standard(&mut limits) };
        limits.values
    }
}

/// How a stream ended.
#[derive(Clone, Copy, Debug, PartialEq, Eq)]
pub enum End {
    /// With the end-of-stream mark.
    Mark,
    /// With the end of the source between two messages.
    Closed,
}

/// A stream that is read: an iterator over its batches. It may move to another thread if its source
/// may. No byte after the end-of-stream mark is read from the source.
///
/// After an error, and after the end, the iterator returns `None`. Only if the source has no bytes
/// yet ([`ErrorKind::WouldBlock`]) the next call reads on.
#[derive(Debug)]
pub struct Reader<R> {
    source: R,
    reader: Handle,
    room: Vec<u8>,
    // The bytes before the next decision.
    wanted: usize,
    schema: Option<String>,
    end: Option<End>,
    failed: bool,
}

// The library's reader.
#[derive(Debug)]
struct Handle(NonNull<ffi::Reader>);

// SAFETY: any thread may use a reader, by one call at a time.
unsafe impl Send for Handle {}

impl Drop for Handle {
    fn drop(&mut self) {
        // SAFETY: the reader was not freed, and is not used after.
        unsafe { ffi::arrowstream_reader_free(self.0.as_ptr()) }
    }
}

/// Returns the text that a call copies, or `None` if there is none.
pub(crate) fn text_of(
    call: impl Fn(*mut u8, usize, *mut usize) -> u32,
) -> Result<Option<String>, Error> {
    let mut text = vec![0; TEXT];
    let mut wanted = 0;
    let mut status = call(text.as_mut_ptr(), text.len(), &mut wanted);
    if status == ffi::OK && wanted > text.len() {
        text.resize(wanted, 0);
        status = call(text.as_mut_ptr(), text.len(), &mut wanted);
    }
    if status == ffi::OUT_OF_MEMORY {
        return Err(Error::OutOfMemory);
    }
    text.truncate(wanted);
    Ok((status == ffi::OK).then(|| String::from_utf8_lossy(&text).into_owned()))
}

impl<R: Read> Reader<R> {
    /// Reads the schema of a stream from `source`, such as a file or a socket. Each message is read
    /// by four calls of the source or more.
    pub fn open(source: R, limits: &Limits) -> Result<Reader<R>, Error> {
        let mut reader = null_mut();
        // SAFETY: `reader` may be written.
        unsafe { ffi::arrowstream_reader_open(&ffi::Limits::new(*limits), &mut reader) };
        let reader = Handle(NonNull::new(reader).ok_or(Error::OutOfMemory)?);
        let room = vec![0; PIECE];
        let (schema, end) = (None, None);
        let mut stream = Reader { source, reader, room, wanted: 0, schema, end, failed: false };
        // Before the first bytes this says how many are wanted.
        stream.feed(0)?;
        stream.advance()?;
        Ok(stream)
    }

    /// Returns the schema as JSON, in the form of `docs/SCHEMA.md`.
    pub fn schema(&self) -> &str {
        self.schema.as_deref().unwrap_or_default()
    }

    /// Returns how the stream ended, or `None` before its end.
    pub fn end(&self) -> Option<End> {
        self.end
    }

    /// Takes a batch back that is no longer needed: the next body is read into its memory, which
    /// saves the time to allocate and clear as much.
    pub fn reuse(&mut self, batch: Batch) {
        let batch = ManuallyDrop::new(batch);
        // SAFETY: neither the reader nor the batch was freed, and the batch is not used after.
        unsafe { ffi::arrowstream_reader_reuse(self.reader.0.as_ptr(), batch.as_ptr()) }
    }

    // Reads up to the next event, and returns it.
    fn advance(&mut self) -> Result<u64, Error> {
        loop {
            let size = self.wanted.min(PIECE);
            match self.source.read(&mut self.room[..size]) {
                Ok(0) => return self.close(),
                Ok(count) => match self.feed(count)? {
                    ffi::NOTHING => {}
                    event => return Ok(event),
                },
                Err(error) if error.kind() == ErrorKind::Interrupted => {}
                Err(error) => return Err(Error::Read(error)),
            }
        }
    }

    // Feeds the first `count` bytes of `room`, no more than are wanted. Returns the event.
    fn feed(&mut self, count: usize) -> Result<u64, Error> {
        let piece = &self.room[..count];
        let mut progress = ffi::Progress::new();
        // SAFETY: the reader was not freed; `piece` has this length.
        let status = unsafe {
            let reader = self.reader.0.as_ptr();
            ffi::arrowstream_reader_feed(reader, piece.as_ptr(), piece.len(), &mut progress)
        };
        self.check(status)?;
        self.wanted = progress.wanted;
        match progress.event {
            ffi::SCHEMA => self.schema = self.text(ffi::arrowstream_reader_schema)?,
            ffi::END => self.end = Some(End::Mark),
            _ => {}
        }
        Ok(progress.event)
    }

    // Ends the input.
    fn close(&mut self) -> Result<u64, Error> {
        let mut progress = ffi::Progress::new();
        // SAFETY: the reader was not freed.
        let status =
            unsafe { ffi::arrowstream_reader_close(self.reader.0.as_ptr(), &mut progress) };
        self.check(status)?;
        let is_mark = progress.event == ffi::END;
        self.end = Some(if is_mark { End::Mark } else { End::Closed });
        Ok(progress.event)
    }

    // The batch that was reported.
    fn take(&mut self) -> Result<Batch, Error> {
        let mut batch = null_mut();
        // SAFETY: the reader was not freed, and `batch` may be written.
        self.check(unsafe { ffi::arrowstream_reader_take(self.reader.0.as_ptr(), &mut batch) })?;
        NonNull::new(batch).map(Batch::new).ok_or(Error::OutOfMemory)
    }

    // A text of the reader.
    fn text(
        &self,
        call: unsafe extern "C" fn(*const ffi::Reader, *mut u8, usize, *mut usize) -> u32,
    ) -> Result<Option<String>, Error> {
        // SAFETY: the reader was not freed; `text` has `length` bytes.
        text_of(|text, length, wanted| unsafe {
            call(self.reader.0.as_ptr(), text, length, wanted)
        })
    }

    // The error of a status.
    fn check(&mut self, status: u32) -> Result<(), Error> {
        match status {
            ffi::OK => Ok(()),
            ffi::OUT_OF_MEMORY => Err(Error::OutOfMemory),
            number => {
                let line = self.text(ffi::arrowstream_reader_line)?.unwrap_or_default();
                Err(Error::Refused { number, line })
            }
        }
    }
}

impl<R: Read> Iterator for Reader<R> {
    type Item = Result<Batch, Error>;

    fn next(&mut self) -> Option<Result<Batch, Error>> {
        if self.failed || self.end.is_some() {
            return None;
        }
        let batch = match self.advance() {
            Ok(ffi::BATCH) => self.take(),
            Ok(_) => return None,
            Err(error) => Err(error),
        };
        self.failed = match &batch {
            Ok(_) => false,
            Err(Error::Read(cause)) => cause.kind() != ErrorKind::WouldBlock,
            Err(_) => true,
        };
        Some(batch)
    }
}
