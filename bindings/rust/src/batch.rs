//! Record batches, and the buffers of their columns.

use crate::ffi;
use crate::reader::text_of;
use crate::Error;
use std::mem::{size_of, size_of_val};
use std::ptr::{null_mut, NonNull};
use std::slice;

/// The step of a path from a column of indices to the values of its dictionary.
pub const DICTIONARY: u64 = u64::MAX;

/// A record batch. It remains valid whatever its reader reads.
#[derive(Debug)]
pub struct Batch {
    batch: NonNull<ffi::Batch>,
}

// SAFETY: any thread may use a batch, by one call at a time. What it shares with its reader is
// constant, and is counted by atomic steps.
unsafe impl Send for Batch {}

/// How the slots of a column are stored (Arrow Columnar Format, "Physical Memory Layout").
#[derive(Clone, Copy, Debug, PartialEq, Eq)]
pub enum Layout {
    /// No buffers: each slot is null.
    Null,
    /// A bit for each slot, the lowest bit of a byte first.
    Bits,
    /// Little-endian numbers of one width.
    Numbers {
        /// The number of bits of each: 8, 16, 32 or 64.
        bits: u32,
        /// Whether they are stored in two's complement.
        signed: bool,
    },
    /// This many bytes for each slot.
    FixedBytes(u32),
    /// Offsets of 32 bits into the bytes of values.
    Bytes,
    /// Offsets of 32 bits into the bytes of values, which are UTF-8 between them.
    Texts,
    /// Offsets of 32 bits into the slots of child 0.
    Lists,
    /// This many slots of child 0 for each slot.
    FixedLists(u32),
    /// Slot `i` has slot `i` of each child.
    Structs,
    /// Little-endian indices of one width into the values of a dictionary.
    Indices {
        /// The number of bits of each: 8, 16, 32 or 64.
        bits: u32,
        /// Whether they are stored in two's complement.
        signed: bool,
        /// The id of the dictionary.
        id: i64,
    },
}

/// What a column stores.
#[derive(Clone, Copy, Debug)]
pub struct Column {
    /// How the slots are stored.
    pub layout: Layout,
    /// The number of slots. A column of a batch has one for each row.
    pub slots: usize,
    /// The number of slots that the validity bitmap marks as null.
    pub nulls: u64,
    /// The number of children.
    pub children: usize,
    /// The number of bytes of the validity bitmap: 0 if no slot is null.
    pub validity: usize,
    /// The number of bytes of the offsets.
    pub offsets: usize,
    /// The number of bytes of the values.
    pub values: usize,
}

/// One of the buffers of a column.
#[derive(Clone, Copy, Debug, PartialEq, Eq)]
pub enum Buffer {
    /// The validity bitmap.
    Validity = 0,
    /// The offsets.
    Offsets = 1,
    /// The values. Those of null slots have no meaning.
    Values = 2,
}

/// A type of numbers that a column stores: the signed and unsigned integers of 8 to 64 bits.
pub trait Number: Copy + Default + private::Sealed {
    /// The number of bits.
    const BITS: u32;
    /// Whether it is stored in two's complement.
    const SIGNED: bool;
}

mod private {
    pub trait Sealed {}
}

macro_rules! numbers {
    ($($number:ty),*) => {$(
        impl private::Sealed for $number {}

        impl Number for $number {
            const BITS: u32 = <$number>::BITS;
            const SIGNED: bool = <$number>::MIN != 0;
        }
    )*};
}

numbers!(i8, i16, i32, i64, u8, u16, u32, u64);

fn layout_of(layout: ffi::Layout) -> Layout {
    let (bits, signed) = (layout.bits, layout.is_signed == 1);
    match layout.kind {
        0 => Layout::Null,
        1 => Layout::Bits,
        2 => Layout::Numbers { bits, signed },
        3 => Layout::FixedBytes(layout.size),
        4 => Layout::Bytes,
        5 => Layout::Texts,
        6 => Layout::Lists,
        7 => Layout::FixedLists(layout.size),
        8 => Layout::Structs,
        9 => Layout::Indices { bits, signed, id: layout.dictionary },
        kind => unreachable!("the library has no layout {kind}"),
    }
}

impl Batch {
    pub(crate) fn new(batch: NonNull<ffi::Batch>) -> Batch {
        Batch { batch }
    }

    pub(crate) fn as_ptr(&self) -> *mut ffi::Batch {
        self.batch.as_ptr()
    }

    /// Returns another handle of the same batch, for use by another thread. The two share the memory
    /// of the body.
    pub fn try_clone(&self) -> Result<Batch, Error> {
        let mut batch = null_mut();
        // SAFETY: the batch was not freed, and `batch` may be written.
        unsafe { ffi::arrowstream_batch_clone(self.batch.as_ptr(), &mut batch) };
        NonNull::new(batch).map(Batch::new).ok_or(Error::OutOfMemory)
    }

    /// Returns the number of rows.
    pub fn rows(&self) -> usize {
        // SAFETY: the batch was not freed.
        unsafe { ffi::arrowstream_batch_rows(self.batch.as_ptr()) }
    }

    /// Returns the number of columns.
    pub fn columns(&self) -> usize {
        // SAFETY: the batch was not freed.
        unsafe { ffi::arrowstream_batch_columns(self.batch.as_ptr()) }
    }

    /// Returns the metadata of the batch's message as JSON: an array of pairs of key and value.
    pub fn pairs(&self) -> Result<String, Error> {
        // SAFETY: the batch was not freed; `text` has `length` bytes.
        let text = text_of(|text, length, wanted| unsafe {
            ffi::arrowstream_batch_pairs(self.batch.as_ptr(), text, length, wanted)
        })?;
        Ok(text.unwrap_or_default())
    }

    /// Describes the column to which a path leads: the number of a column, and then the number of
    /// a child, or [`DICTIONARY`], for each step down. Returns `None` if there is no such column.
    pub fn column(&self, path: &[u64]) -> Option<Column> {
        let mut column = ffi::Column::new();
        // SAFETY: the batch was not freed; `path` has this length.
        let status = unsafe {
            ffi::arrowstream_batch_column(
                self.batch.as_ptr(),
                path.as_ptr(),
                path.len(),
                &mut column,
            )
        };
        (status == ffi::OK).then(|| Column {
            layout: layout_of(column.layout),
            slots: column.slots,
            nulls: column.nulls,
            children: column.children,
            validity: column.validity,
            offsets: column.offsets,
            values: column.values,
        })
    }

    /// Copies a buffer of the column to which a path leads to the beginning of `bytes`, or nothing
    /// if `bytes` is too short. Returns the number of bytes of the buffer in both cases, or `None`
    /// if there is no such column.
    pub fn copy_buffer(&self, path: &[u64], buffer: Buffer, bytes: &mut [u8]) -> Option<usize> {
        let mut wanted = 0;
        // SAFETY: the batch was not freed; `path` and `bytes` have these lengths.
        let status = unsafe {
            ffi::arrowstream_batch_buffer(
                self.batch.as_ptr(),
                path.as_ptr(),
                path.len(),
                buffer as u32,
                bytes.as_mut_ptr(),
                bytes.len(),
                &mut wanted,
            )
        };
        (status == ffi::OK).then_some(wanted)
    }

    /// Returns the numbers or indices that the column to which a path leads stores, one for each
    /// slot. Those of null slots have no meaning. Returns `None` if there is no such column, or if
    /// it stores other values than numbers of this type.
    pub fn numbers<T: Number>(&self, path: &[u64]) -> Option<Vec<T>> {
        let column = self.column(path)?;
        match column.layout {
            Layout::Numbers { bits, signed } | Layout::Indices { bits, signed, .. }
                if bits == T::BITS && signed == T::SIGNED => {}
            _ => return None,
        }
        let mut numbers = vec![T::default(); column.values.div_ceil(size_of::<T>())];
        // SAFETY: the numbers are these bytes, and any bytes are numbers.
        let bytes = unsafe {
            slice::from_raw_parts_mut(numbers.as_mut_ptr().cast::<u8>(), size_of_val(&numbers[..]))
        };
        self.copy_buffer(path, Buffer::Values, bytes)?;
        numbers.truncate(column.slots);
        Some(numbers)
    }

    /// Returns a buffer of the column to which a path leads, or `None` if there is no such column.
    pub fn buffer(&self, path: &[u64], buffer: Buffer) -> Option<Vec<u8>> {
        let column = self.column(path)?;
        let length = match buffer {
            Buffer::Validity => column.validity,
            Buffer::Offsets => column.offsets,
            Buffer::Values => column.values,
        };
        let mut bytes = vec![0; length];
        self.copy_buffer(path, buffer, &mut bytes)?;
        Some(bytes)
    }
}

impl Drop for Batch {
    fn drop(&mut self) {
        // SAFETY: the batch was not freed, and is not used after.
        unsafe { ffi::arrowstream_batch_free(self.batch.as_ptr()) }
    }
}
