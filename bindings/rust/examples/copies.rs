//! Writes streams again: by the cells of their rows, or by the columns of their batches.
//!
//! A line of standard input has the word `rows` or `columns` and a stream in hexadecimal digits.
//! For each a line is printed: the new stream in hexadecimal digits, or why it is refused.

use arrowstream::{Batch, Buffer, Cell, Error, Layout, Limits, Reader, Writer, DICTIONARY};
use std::io::{stdin, BufRead};

// A column with all below it. The program is short, so cells borrow columns that are never freed.
struct Values {
    layout: Layout,
    slots: usize,
    validity: Vec<u8>,
    offsets: Vec<u8>,
    values: Vec<u8>,
    children: Vec<Values>,
}

impl Values {
    // The column at a path, if there is one. The values of its dictionary are its only child.
    fn of(batch: &Batch, path: &[u64]) -> Option<Values> {
        let column = batch.column(path)?;
        let below = match column.layout {
            Layout::Indices { .. } => DICTIONARY..=DICTIONARY,
            _ => 0..=column.children as u64,
        };
        let children = below.filter_map(|step| Values::of(batch, &[path, &[step]].concat()));
        Some(Values {
            layout: column.layout,
            slots: column.slots,
            validity: batch.buffer(path, Buffer::Validity)?,
            offsets: batch.buffer(path, Buffer::Offsets)?,
            values: batch.buffer(path, Buffer::Values)?,
            children: children.collect(),
        })
    }

    // The number in a slot, which has this number of bits.
    fn number(&self, slot: usize, bits: u32, signed: bool) -> i64 {
        let size = bits as usize / 8;
        let mut bytes = [0; 8];
        bytes[..size].copy_from_slice(&self.values[slot * size..][..size]);
        let number = i64::from_le_bytes(bytes);
        let unused = 64 - bits;
        if signed {
            number << unused >> unused
        } else {
            number
        }
    }

    // Where a slot begins and ends in the bytes of values, or in the slots of child 0.
    fn span(&self, slot: usize) -> std::ops::Range<usize> {
        let offset = |at: usize| {
            u32::from_le_bytes(self.offsets[4 * at..][..4].try_into().expect("4 bytes")) as usize
        };
        offset(slot)..offset(slot + 1)
    }

    // The cells of slots of child 0.
    fn items(&'static self, slots: std::ops::Range<usize>) -> Cell<'static> {
        let items: Vec<Cell> = slots.map(|slot| self.children[0].cell(slot)).collect();
        Cell::List(items.leak())
    }

    // The cell of a slot that a row shows.
    fn cell(&'static self, slot: usize) -> Cell<'static> {
        let bit = |bitmap: &[u8]| bitmap[slot / 8] >> (slot % 8) & 1 == 1;
        if !self.validity.is_empty() && !bit(&self.validity) {
            return Cell::Null;
        }
        match self.layout {
            Layout::Null => Cell::Null,
            Layout::Bits => Cell::Bool(bit(&self.values)),
            Layout::Numbers { bits, signed: true } => Cell::Int(self.number(slot, bits, true)),
            Layout::Numbers { bits, signed } => Cell::Uint(self.number(slot, bits, signed) as u64),
            Layout::FixedBytes(size) => {
                Cell::Bytes(&self.values[slot * size as usize..][..size as usize])
            }
            Layout::Bytes => Cell::Bytes(&self.values[self.span(slot)]),
            Layout::Texts => {
                Cell::Text(std::str::from_utf8(&self.values[self.span(slot)]).expect("UTF-8"))
            }
            Layout::Lists => self.items(self.span(slot)),
            Layout::FixedLists(size) => {
                self.items(slot * size as usize..(slot + 1) * size as usize)
            }
            Layout::Structs => {
                let members: Vec<Cell> = self.children.iter().map(|it| it.cell(slot)).collect();
                Cell::Struct(members.leak())
            }
            Layout::Indices { bits, signed, .. } => {
                self.children[0].cell(self.number(slot, bits, signed) as usize)
            }
        }
    }
}

fn write_rows(writer: &mut Writer<Vec<u8>>, batch: &Batch) -> Result<(), Error> {
    let columns = (0..batch.columns() as u64).filter_map(|number| Values::of(batch, &[number]));
    let columns: &'static [Values] = columns.collect::<Vec<_>>().leak();
    assert!(columns.iter().all(|it| it.slots == batch.rows()));
    for row in 0..batch.rows() {
        let cells: Vec<Cell> = columns.iter().map(|it| it.cell(row)).collect();
        writer.row(&cells)?;
    }
    writer.send()
}

fn copy(stream: &[u8], by_rows: bool) -> Result<Vec<u8>, Error> {
    let mut reader = Reader::open(stream, &Limits::standard())?;
    let mut writer = Writer::open(Vec::new(), reader.schema(), &Limits::standard())?;
    for batch in &mut reader {
        let batch = batch?;
        if by_rows {
            write_rows(&mut writer, &batch)?;
        } else {
            writer.write_batch(&batch)?;
        }
    }
    writer.finish()
}

fn bytes_of(digits: &str) -> Vec<u8> {
    let pairs = digits.as_bytes().chunks(2).map(|it| std::str::from_utf8(it).expect("digits"));
    pairs.map(|it| u8::from_str_radix(it, 16).expect("digits")).collect()
}

fn main() {
    for line in stdin().lock().lines() {
        let line = line.expect("a line");
        let (how, digits) = line.split_once(' ').expect("two words");
        match copy(&bytes_of(digits), how == "rows") {
            Ok(stream) => {
                println!("{}", stream.iter().map(|it| format!("{it:02x}")).collect::<String>());
            }
            Err(error) => println!("refused {error}"),
        }
    }
}
