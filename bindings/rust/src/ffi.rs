//! The declarations of `include/arrowstream.h` and `include/arrowstream_cdata.h` that this crate
//! uses.
#![allow(missing_docs)]

use crate::cdata::{ArrowArray, ArrowSchema};
use std::marker::{PhantomData, PhantomPinned};
use std::mem::size_of;

pub(crate) const OK: u32 = 0;
pub(crate) const OUT_OF_MEMORY: u32 = 37;
// W9: the bytes of a writer go to memory, so only a lack of memory refuses them.
pub(crate) const WRITE_NO_ROOM: u32 = 109;
pub(crate) const WRITE_FAILED: u32 = 110;
pub(crate) const WRITE_OUT_OF_MEMORY: u32 = 111;

pub(crate) const NOTHING: u64 = 0;
pub(crate) const SCHEMA: u64 = 1;
pub(crate) const BATCH: u64 = 2;
pub(crate) const END: u64 = 3;

#[repr(C)]
pub(crate) struct Reader {
    _opaque: [u8; 0],
    _marker: PhantomData<(*mut u8, PhantomPinned)>,
}

#[repr(C)]
pub(crate) struct Batch {
    _opaque: [u8; 0],
    _marker: PhantomData<(*mut u8, PhantomPinned)>,
}

#[repr(C)]
pub(crate) struct Writer {
    _opaque: [u8; 0],
    _marker: PhantomData<(*mut u8, PhantomPinned)>,
}

#[repr(C)]
pub(crate) struct Exporter {
    _opaque: [u8; 0],
    _marker: PhantomData<(*mut u8, PhantomPinned)>,
}

#[repr(C)]
pub(crate) struct Message {
    pub(crate) text: [u8; 256],
}

#[repr(C)]
pub(crate) struct Limits {
    size: usize,
    pub(crate) values: crate::Limits,
}

impl Limits {
    pub(crate) fn new(values: crate::Limits) -> Limits {
        Limits { size: size_of::<Limits>(), values }
    }
}

#[repr(C)]
#[derive(Default)]
pub(crate) struct Progress {
    size: usize,
    pub(crate) taken: usize,
    pub(crate) wanted: usize,
    pub(crate) messages: u64,
    pub(crate) event: u64,
}

impl Progress {
    pub(crate) fn new() -> Progress {
        Progress { size: size_of::<Progress>(), ..Progress::default() }
    }
}

#[repr(C)]
#[derive(Clone, Copy, Default)]
pub(crate) struct Layout {
    pub(crate) kind: u32,
    pub(crate) bits: u32,
    pub(crate) is_signed: u32,
    pub(crate) size: u32,
    pub(crate) dictionary: i64,
}

#[repr(C)]
#[derive(Default)]
pub(crate) struct Column {
    size: usize,
    pub(crate) layout: Layout,
    pub(crate) slots: usize,
    pub(crate) nulls: u64,
    pub(crate) children: usize,
    pub(crate) validity: usize,
    pub(crate) offsets: usize,
    pub(crate) values: usize,
}

impl Column {
    pub(crate) fn new() -> Column {
        Column { size: size_of::<Column>(), ..Column::default() }
    }
}

extern "C" {
    pub(crate) fn arrowstream_limits_standard(out: *mut Limits) -> u32;
    pub(crate) fn arrowstream_reader_open(limits: *const Limits, out: *mut *mut Reader);
    pub(crate) fn arrowstream_reader_feed(
        reader: *mut Reader,
        bytes: *const u8,
        length: usize,
        out: *mut Progress,
    ) -> u32;
    pub(crate) fn arrowstream_reader_close(reader: *mut Reader, out: *mut Progress) -> u32;
    pub(crate) fn arrowstream_reader_schema(
        reader: *const Reader,
        text: *mut u8,
        length: usize,
        wanted: *mut usize,
    ) -> u32;
    pub(crate) fn arrowstream_reader_line(
        reader: *const Reader,
        text: *mut u8,
        length: usize,
        wanted: *mut usize,
    ) -> u32;
    pub(crate) fn arrowstream_reader_take(reader: *mut Reader, out: *mut *mut Batch) -> u32;
    pub(crate) fn arrowstream_reader_reuse(reader: *mut Reader, batch: *mut Batch);
    pub(crate) fn arrowstream_reader_free(reader: *mut Reader);
    pub(crate) fn arrowstream_batch_rows(batch: *const Batch) -> usize;
    pub(crate) fn arrowstream_batch_columns(batch: *const Batch) -> usize;
    pub(crate) fn arrowstream_batch_pairs(
        batch: *const Batch,
        text: *mut u8,
        length: usize,
        wanted: *mut usize,
    ) -> u32;
    pub(crate) fn arrowstream_batch_column(
        batch: *const Batch,
        path: *const u64,
        steps: usize,
        out: *mut Column,
    ) -> u32;
    pub(crate) fn arrowstream_batch_buffer(
        batch: *const Batch,
        path: *const u64,
        steps: usize,
        buffer: u32,
        bytes: *mut u8,
        length: usize,
        wanted: *mut usize,
    ) -> u32;
    pub(crate) fn arrowstream_batch_clone(batch: *const Batch, out: *mut *mut Batch) -> u32;
    pub(crate) fn arrowstream_batch_free(batch: *mut Batch);
    pub(crate) fn arrowstream_writer_open(limits: *const Limits, out: *mut *mut Writer);
    pub(crate) fn arrowstream_writer_schema(
        writer: *mut Writer,
        text: *const u8,
        length: usize,
    ) -> u32;
    pub(crate) fn arrowstream_writer_null(writer: *mut Writer) -> u32;
    pub(crate) fn arrowstream_writer_bool(writer: *mut Writer, value: u32) -> u32;
    pub(crate) fn arrowstream_writer_int(writer: *mut Writer, value: i64) -> u32;
    pub(crate) fn arrowstream_writer_uint(writer: *mut Writer, value: u64) -> u32;
    pub(crate) fn arrowstream_writer_bytes(
        writer: *mut Writer,
        bytes: *const u8,
        length: usize,
    ) -> u32;
    pub(crate) fn arrowstream_writer_text(
        writer: *mut Writer,
        text: *const u8,
        length: usize,
    ) -> u32;
    pub(crate) fn arrowstream_writer_begin_list(writer: *mut Writer) -> u32;
    pub(crate) fn arrowstream_writer_begin_struct(writer: *mut Writer) -> u32;
    pub(crate) fn arrowstream_writer_end(writer: *mut Writer) -> u32;
    pub(crate) fn arrowstream_writer_row(writer: *mut Writer) -> u32;
    pub(crate) fn arrowstream_writer_pair(
        writer: *mut Writer,
        key: *const u8,
        key_length: usize,
        value: *const u8,
        value_length: usize,
    ) -> u32;
    pub(crate) fn arrowstream_writer_send(writer: *mut Writer) -> u32;
    pub(crate) fn arrowstream_writer_columns(writer: *mut Writer, batch: *const Batch) -> u32;
    pub(crate) fn arrowstream_writer_finish(writer: *mut Writer) -> u32;
    pub(crate) fn arrowstream_writer_take(
        writer: *mut Writer,
        bytes: *mut u8,
        length: usize,
    ) -> usize;
    pub(crate) fn arrowstream_writer_line(
        writer: *const Writer,
        text: *mut u8,
        length: usize,
        wanted: *mut usize,
    ) -> u32;
    pub(crate) fn arrowstream_writer_free(writer: *mut Writer);
    pub(crate) fn arrowstream_exporter_open(
        schema: *const u8,
        length: usize,
        out: *mut *mut Exporter,
        message: *mut Message,
    ) -> i32;
    pub(crate) fn arrowstream_exporter_schema(
        exporter: *const Exporter,
        out: *mut ArrowSchema,
        message: *mut Message,
    ) -> i32;
    pub(crate) fn arrowstream_exporter_batch(
        exporter: *mut Exporter,
        batch: *const Batch,
        out: *mut ArrowArray,
        message: *mut Message,
    ) -> i32;
    pub(crate) fn arrowstream_exporter_free(exporter: *mut Exporter);
    pub(crate) fn arrowstream_import_schema(
        writer: *mut Writer,
        schema: *const ArrowSchema,
        message: *mut Message,
    ) -> i32;
    pub(crate) fn arrowstream_import_batch(
        writer: *mut Writer,
        schema: *const ArrowSchema,
        array: *const ArrowArray,
        message: *mut Message,
    ) -> i32;
}
