//! The boundary's manner: little-endian numbers, parts that are no room, and
//! refusals as one 64-bit number.

mod common;
use common::triangle;
use second::boundary::{refusal, refused, Boundary, Chunk, Second, RECORD_BYTES};
use second::RECORD;

#[test]
fn answers_are_numbers() {
    let file = triangle();
    assert_eq!(Second.check(&file), 6);
    assert_eq!(Second.check(&[]), 2 << 32);
    assert_eq!(
        Second.tables(&file, 0, &mut [0; 36], &mut [0; 6]),
        3 + 65_536
    );
    assert_eq!(Second.tables(&file, 0, &mut [], &mut []), (15 << 32) + 9);
    assert_eq!(
        Second.tables(&file, 0, &mut [0; 36], &mut [0; 5]),
        (15 << 32) + 3
    );
    assert_eq!(Second.tables(&file, 1, &mut [], &mut []), (16 << 32) + 1);
    assert_eq!(refusal((15 << 32) + 9), Some((15, 9)));
    assert_eq!(refusal(u64::from(u32::MAX)), None);
    assert_eq!(refused(9, usize::MAX), (9 << 32) + 0xFFFF_FFFF);
}

#[test]
fn a_part_is_no_room() {
    let file = triangle();
    const ROOM: usize = 6 * RECORD_BYTES;
    let mut records = [7; ROOM + 6];
    assert_eq!(Second.list(&file, &mut records[..ROOM - 1]), (15 << 32) + 6);
    assert_eq!(records, [7; ROOM + 6]);
    assert_eq!(Second.list(&file, &mut records), 6);
    assert_eq!(records[..8], [0x4D, 0x4D, 0, 0, 0, 0, 0, 0]);
    let last = &records[5 * RECORD_BYTES..ROOM];
    assert_eq!(last[..8], [0x20, 0x41, 0, 0, 70, 0, 0, 0]);
    assert_eq!(records[ROOM..], [7; 6]);
}

#[test]
fn the_row_and_the_table_both_have_room() {
    let file = triangle();
    const ROOM: usize = 6 * RECORD;
    let seven = Chunk::from([7; RECORD]);
    let (mut row, mut table) = ([7; ROOM + 4], [seven; 7]);
    for (n, m) in [(ROOM - 1, 7), (ROOM + 4, 5), (0, 7), (ROOM + 4, 0)] {
        let answer = Second.records(&file, &mut row[..n], &mut table[..m]);
        assert_eq!(answer, (15 << 32) + 6);
    }
    assert_eq!(Second.records(&[], &mut row, &mut table), 2 << 32);
    assert_eq!((row, table), ([7; ROOM + 4], [seven; 7]));
    assert_eq!(Second.records(&file, &mut row, &mut table), 6);
    let (first, last) = ([0x4D4D, 0, 86, 0, 0, 0, 6], [0x4120, 70, 16, 4, 3, 10, 6]);
    assert_eq!(row[5 * RECORD..], [&last[..], &[7; 4]].concat());
    assert_eq!(table[0], Chunk::from(first));
    assert_eq!(<[u32; RECORD]>::from(table[5]), last);
    assert_eq!(table[6], seven);
}

#[test]
fn a_few_numbers() {
    let file = triangle();
    let mut counts = [7; 13];
    assert_eq!(Second.counts(&file, &mut counts[..11]), (15 << 32) + 3);
    assert_eq!(Second.counts(&file, &mut counts), 3);
    assert_eq!(counts, [36, 0, 0, 0, 50, 0, 0, 0, 0, 0, 0, 0, 7]);
    let mut span = [7; 8];
    assert_eq!(Second.name(&file, 0, &mut span[..7]), (15 << 32) + 2);
    assert_eq!(Second.name(&file, 1, &mut []), (16 << 32) + 1);
    assert_eq!(Second.name(&file, 0, &mut span), 2);
    assert_eq!(span, [18, 0, 0, 0, 1, 0, 0, 0]);
    let mut nine = [7; 36];
    assert_eq!(
        Second.bounding_box(&file, 0, &mut nine[..35]),
        (15 << 32) + 9
    );
    assert_eq!(Second.bounding_box(&file, 0, &mut nine), 9);
    assert_eq!(nine[12..16], 1.0_f32.to_le_bytes());
    assert_eq!(nine[24..28], 0.5_f32.to_le_bytes());
}

#[test]
fn the_writer_counts_in_numbers() {
    let mut out = [7; 41];
    assert_eq!(Second.write(&[], &[], &[], &mut out), 41);
    assert_eq!(Second.write(&[], &[], &[], &mut []), (15 << 32) + 41);
    assert_eq!(Second.write(&[], &[0.0], &[], &mut []), (13 << 32) + 1);
}
