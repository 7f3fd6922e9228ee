//! The calls over slips.

use super::{answer, numbers, put, Second};
use crate::{read_slip, write_slip, Entry, Number, Refusal};

/// The bytes of one entry on the boundary: where its name stands, the name's
/// length, the file's length, its sums.
pub const ENTRY_BYTES: usize = 16;

/// The calls over slips.
pub trait Slips {
    /// The count of entries, now in the slice.
    fn slip_read(&self, slip: &[u8], entries: &mut [u8]) -> u64;
    /// The size of the slip, now in the slice.
    fn slip_write(&self, names: &[u8], entries: &[u8], out: &mut [u8]) -> u64;
}

impl Slips for Second {
    fn slip_read(&self, slip: &[u8], entries: &mut [u8]) -> u64 {
        answer(read_slip(slip).and_then(|read| {
            let count = read.len();
            Number::NoRoom.unless(count <= entries.len() / ENTRY_BYTES, count)?;
            let numbers = read.iter().flat_map(|entry| {
                [
                    entry.name_offset,
                    entry.name_length,
                    entry.length,
                    entry.sums,
                ]
            });
            put(entries, numbers.map(u32::to_le_bytes));
            Ok(count)
        }))
    }

    fn slip_write(&self, names: &[u8], entries: &[u8], out: &mut [u8]) -> u64 {
        answer(written(names, entries).and_then(|slip| {
            let size = slip.len();
            Number::NoRoom.unless(size <= out.len(), size)?;
            out[..size].copy_from_slice(&slip);
            Ok(size)
        }))
    }
}

/// The slip of entries as bytes; a part of one at the end is one more, and bad.
fn written(names: &[u8], entries: &[u8]) -> Result<Vec<u8>, Refusal> {
    let (whole, part) = entries.as_chunks::<ENTRY_BYTES>();
    let entries = whole.iter().map(|bytes| entry(&numbers(bytes)));
    let mut entries: Vec<Entry> = entries.collect();
    if !part.is_empty() {
        entries.push(Entry::default());
    }
    write_slip(names, &entries)
}

/// An entry of its four numbers.
fn entry(numbers: &[u32]) -> Entry {
    Entry {
        name_offset: numbers[0],
        name_length: numbers[1],
        length: numbers[2],
        sums: numbers[3],
    }
}

#[cfg(feature = "tds")]
mod linked {
    //! The library under test.

    use super::Slips;
    use crate::boundary::linked::{lend, read, Tds};

    extern "C" {
        fn tds_slip_read(slip: *const u8, slip_len: usize, entries: *mut u8, len: usize) -> u64;
        fn tds_slip_write(
            names: *const u8,
            names_len: usize,
            entries: *const u8,
            entries_len: usize,
            out: *mut u8,
            out_len: usize,
        ) -> u64;
    }

    // As for the calls over figures: the slices live through each call.
    impl Slips for Tds {
        fn slip_read(&self, slip: &[u8], entries: &mut [u8]) -> u64 {
            let (len, mut some) = (entries.len(), [0; 8]);
            let entries = lend(entries, &mut some);
            unsafe { tds_slip_read(read(slip, &[0]), slip.len(), entries, len) }
        }

        fn slip_write(&self, names: &[u8], entries: &[u8], out: &mut [u8]) -> u64 {
            let (len, mut some) = (out.len(), [0; 8]);
            let out = lend(out, &mut some);
            let (a, a_len) = (read(names, &[0]), names.len());
            let (b, b_len) = (read(entries, &[0]), entries.len());
            unsafe { tds_slip_write(a, a_len, b, b_len, out, len) }
        }
    }
}
