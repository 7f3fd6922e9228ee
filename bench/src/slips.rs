//! The calls about slips that are timed: the sums of a file at the limit, and
//! the slip that costs most to read and to write.

use crate::calls::accepted;
use crate::measure::{both, Times};
use second::boundary::{Right, Slips, Summing};
use second::{read_slip, write_slip, Entry, MOST_ENTRIES};
use std::hint::black_box;

/// Longest names that differ in their last two bytes alone: each is compared
/// with all before it, to its end.
const NAME: usize = 63;

/// The sums of a file.
pub fn sums(file: &[u8], turns: usize) -> Times {
    let right = Right::default();
    let left = || {
        black_box(second::sums(black_box(file))).unwrap();
    };
    both(turns, left, || accepted(right.sums(black_box(file))))
}

/// The worst slip: its size, reading it, writing it.
pub fn worst(turns: usize) -> (usize, Times, Times) {
    let (names, entries) = alike();
    let slip = write_slip(&names, &entries).unwrap();
    let numbers: Vec<u8> = entries.iter().flat_map(bytes).collect();
    let (mut row, mut out) = (vec![0; 16 * MOST_ENTRIES], vec![0; slip.len()]);
    let right = Right::default();
    let left = || {
        black_box(read_slip(black_box(&slip))).unwrap();
    };
    let read = both(turns, left, || {
        accepted(right.slip_read(black_box(&slip), &mut row))
    });
    let left = || {
        black_box(write_slip(black_box(&names), &entries)).unwrap();
    };
    let write = both(turns, left, || {
        accepted(right.slip_write(black_box(&names), &numbers, &mut out));
    });
    (slip.len(), read, write)
}

/// As many entries as a slip may have, and their names.
fn alike() -> (Vec<u8>, Vec<Entry>) {
    let mut names = vec![b'n'; NAME * MOST_ENTRIES];
    let entries = (0..MOST_ENTRIES).map(|k| {
        let end = NAME * (k + 1);
        names[end - 2..end].copy_from_slice(&[b' ' + (k / 64) as u8, b'>' + (k % 64) as u8]);
        Entry {
            name_offset: (end - NAME) as u32,
            name_length: NAME as u32,
            length: 1,
            sums: 0x0101,
        }
    });
    let entries = entries.collect();
    (names, entries)
}

/// An entry as the boundary has it: four numbers.
fn bytes(entry: &Entry) -> Vec<u8> {
    let numbers = [
        entry.name_offset,
        entry.name_length,
        entry.length,
        entry.sums,
    ];
    numbers
        .iter()
        .flat_map(|number| number.to_le_bytes())
        .collect()
}
