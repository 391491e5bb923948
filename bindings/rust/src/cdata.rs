//! Schemas and batches for other Arrow libraries, and from them, by the Arrow C data interface.

use crate::writer::RawWriter;
use crate::{ffi, Batch, Error, Limits, Writer};
use std::ffi::c_void;
use std::io::Write;
use std::ptr::{null_mut, NonNull};

/// `struct ArrowSchema` of the Arrow C data interface, such as `FFI_ArrowSchema` of the crate
/// `arrow`. It is released when it is dropped.
#[repr(C)]
#[derive(Debug)]
pub struct ArrowSchema {
    _texts: [*mut c_void; 3],
    _counts: [i64; 2],
    _below: [*mut c_void; 2],
    release: Option<unsafe extern "C" fn(*mut ArrowSchema)>,
    _private: *mut c_void,
}

/// `struct ArrowArray` of the Arrow C data interface, such as `FFI_ArrowArray` of the crate `arrow`.
/// It is released when it is dropped.
#[repr(C)]
#[derive(Debug)]
pub struct ArrowArray {
    _counts: [i64; 5],
    _below: [*mut c_void; 3],
    release: Option<unsafe extern "C" fn(*mut ArrowArray)>,
    _private: *mut c_void,
}

// SAFETY: the interface lets any thread use and release a schema or an array.
unsafe impl Send for ArrowSchema {}
// SAFETY: as above.
unsafe impl Send for ArrowArray {}

impl ArrowSchema {
    fn released() -> ArrowSchema {
        ArrowSchema {
            _texts: [null_mut(); 3],
            _counts: [0; 2],
            _below: [null_mut(); 2],
            release: None,
            _private: null_mut(),
        }
    }

    /// Moves a schema out of memory of another library, which has a released one after.
    ///
    /// # Safety
    ///
    /// `schema` points to a `struct ArrowSchema` that is not released.
    pub unsafe fn from_raw(schema: *mut c_void) -> ArrowSchema {
        std::mem::replace(&mut *schema.cast::<ArrowSchema>(), ArrowSchema::released())
    }

    /// Returns the address, for a library that moves the schema to itself: after that this one is
    /// released.
    pub fn as_mut_ptr(&mut self) -> *mut c_void {
        (self as *mut ArrowSchema).cast()
    }
}

impl ArrowArray {
    fn released() -> ArrowArray {
        ArrowArray { _counts: [0; 5], _below: [null_mut(); 3], release: None, _private: null_mut() }
    }

    /// Moves an array out of memory of another library, which has a released one after.
    ///
    /// # Safety
    ///
    /// `array` points to a `struct ArrowArray` that is not released, and that is as the interface
    /// demands.
    pub unsafe fn from_raw(array: *mut c_void) -> ArrowArray {
        std::mem::replace(&mut *array.cast::<ArrowArray>(), ArrowArray::released())
    }

    /// Returns the address, for a library that moves the array to itself: after that this one is
    /// released.
    pub fn as_mut_ptr(&mut self) -> *mut c_void {
        (self as *mut ArrowArray).cast()
    }
}

impl Drop for ArrowSchema {
    fn drop(&mut self) {
        if let Some(release) = self.release {
            // SAFETY: the schema is not released.
            unsafe { release(self) }
        }
    }
}

impl Drop for ArrowArray {
    fn drop(&mut self) {
        if let Some(release) = self.release {
            // SAFETY: the array is not released.
            unsafe { release(self) }
        }
    }
}

/// Exports batches of one schema.
#[derive(Debug)]
pub struct Exporter(NonNull<ffi::Exporter>);

// SAFETY: any thread may use an exporter, by one call at a time.
unsafe impl Send for Exporter {}

impl Exporter {
    /// Creates an exporter of batches whose schema the JSON text states, such as that of
    /// [`crate::Reader::schema`].
    pub fn open(schema: &str) -> Result<Exporter, Error> {
        let mut exporter = null_mut();
        // SAFETY: `schema` has this length, and `exporter` may be written.
        call(|message| unsafe {
            ffi::arrowstream_exporter_open(schema.as_ptr(), schema.len(), &mut exporter, message)
        })?;
        Ok(Exporter(NonNull::new(exporter).ok_or(Error::OutOfMemory)?))
    }

    /// Exports the schema, as a struct of its fields.
    pub fn schema(&self) -> Result<ArrowSchema, Error> {
        let mut out = ArrowSchema::released();
        // SAFETY: the exporter was not freed, and `out` may be written.
        call(|message| unsafe {
            ffi::arrowstream_exporter_schema(self.0.as_ptr(), &mut out, message)
        })?;
        Ok(out)
    }

    /// Exports a batch as an array of structs in memory of its own: in canonical layout, without a
    /// byte that no row shows. The pairs of its message are not exported.
    pub fn batch(&mut self, batch: &Batch) -> Result<ArrowArray, Error> {
        let mut out = ArrowArray::released();
        // SAFETY: neither the exporter nor the batch was freed, and `out` may be written.
        call(|message| unsafe {
            ffi::arrowstream_exporter_batch(self.0.as_ptr(), batch.as_ptr(), &mut out, message)
        })?;
        Ok(out)
    }
}

impl Drop for Exporter {
    fn drop(&mut self) {
        // SAFETY: the exporter was not freed, and is not used after.
        unsafe { ffi::arrowstream_exporter_free(self.0.as_ptr()) }
    }
}

impl<W: Write> Writer<W> {
    /// Begins a stream of a schema of another library. Its dictionaries get the ids 0, 1, 2, and so
    /// on.
    ///
    /// Errors: [`Error::Exchange`] for a type that is not supported, and those of [`Writer::open`].
    pub fn open_for(sink: W, schema: &ArrowSchema, limits: &Limits) -> Result<Writer<W>, Error> {
        Writer::begin(sink, limits, |writer| import_schema(writer, schema))
    }

    /// Sends an array of structs of another library as one batch. Rows and pairs that wait are sent
    /// before it, as a batch of their own.
    ///
    /// Errors: [`Error::Exchange`] if a row is null or the array is not of its schema, F28 to F34 if
    /// its buffers are not those of a batch, and W2 to W8 if the batch does not fit the schema or
    /// the limits. Then nothing of it is written, and the writer goes on.
    ///
    /// # Safety
    ///
    /// The array is one of this schema: the schema says how long its buffers are.
    pub unsafe fn write_array(
        &mut self,
        schema: &ArrowSchema,
        array: &ArrowArray,
    ) -> Result<(), Error> {
        self.send_by(|writer| {
            // SAFETY: the writer was not freed; the array is one of this schema.
            call(|message| unsafe { ffi::arrowstream_import_batch(writer, schema, array, message) })
        })
    }
}

fn import_schema(writer: RawWriter, schema: &ArrowSchema) -> Result<(), Error> {
    // SAFETY: the writer was not freed; the schema is not released.
    call(|message| unsafe { ffi::arrowstream_import_schema(writer, schema, message) })
}

// Calls the library, and returns the error of the number.
fn call(call: impl FnOnce(*mut ffi::Message) -> i32) -> Result<(), Error> {
    const NO_MEMORY: i32 = 12;
    let mut message = ffi::Message { text: [0; 256] };
    match call(&mut message) {
        0 => Ok(()),
        NO_MEMORY => Err(Error::OutOfMemory),
        _ => {
            let length = message.text.iter().position(|byte| *byte == 0).unwrap_or(0);
            let line = String::from_utf8_lossy(&message.text[..length]).into_owned();
            Err(match number_of(&line) {
                Some(number) => Error::Refused { number, line },
                None => Error::Exchange { line },
            })
        }
    }
}

// The number of the refusal whose line this is.
fn number_of(line: &str) -> Option<u32> {
    let word = line.split(' ').next()?;
    let number: u32 = word.get(1..)?.parse().ok()?;
    match word.as_bytes()[0] {
        b'F' => Some(number),
        b'W' => Some(100 + number),
        b'X' => Some(200 + number),
        _ => None,
    }
}
