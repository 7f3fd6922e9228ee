//! The slip in the house manner: hand-made slips read and written, and each
//! refusal with its place; asked of both sides.

mod common;
use common::alike;
use second::boundary::{refused, Right, Second, Slips, ENTRY_BYTES};
use second::{Entry, MOST_ENTRIES};

/// Two files on a stick: "a" of 258 bytes, "bc" of 4.
const TWO: [u8; 24] = [
    1, 0, 0, 0, 19, 0, 2, 1, b'a', 0, 0, 1, 2, 3, 4, 2, b'b', b'c', 0, 0, 0, 4, 254, 0,
];

/// What both sides answer, which is the same, and what the lent bytes become.
fn both(room: usize, call: impl Fn(&dyn Slips, &mut [u8]) -> u64) -> (u64, Vec<u8>) {
    let [left, right] = [&Second as &dyn Slips, &Right::default()].map(|side| {
        let mut lent = vec![0xA5; room];
        (call(side, &mut lent), lent)
    });
    assert_eq!(right, left, "right, left");
    left
}

/// The answer of the reader, with room for all that can be read.
fn read(slip: &[u8]) -> u64 {
    let room = ENTRY_BYTES * MOST_ENTRIES;
    both(room, |side, entries| side.slip_read(slip, entries)).0
}

/// The answer of the writer, with room.
fn write(names: &[u8], entries: &[[u32; 4]]) -> u64 {
    let entries = bytes(entries);
    both(300_000, |side, out| side.slip_write(names, &entries, out)).0
}

fn bytes(entries: &[[u32; 4]]) -> Vec<u8> {
    let numbers = entries.as_flattened().iter();
    numbers.flat_map(|number| number.to_le_bytes()).collect()
}

/// TWO with a byte changed.
fn changed(at: usize, byte: u8) -> Vec<u8> {
    let mut slip = TWO.to_vec();
    slip[at] = byte;
    slip
}

#[test]
fn entries_are_four_numbers() {
    let (answer, entries) = both(40, |side, entries| side.slip_read(&TWO, entries));
    assert_eq!(answer, 2);
    let known = bytes(&[[8, 1, 258, 0x0403], [16, 2, 4, 254]]);
    assert_eq!(entries, [&known[..], &[0xA5; 8]].concat());
    let (answer, entries) = both(31, |side, entries| side.slip_read(&TWO, entries));
    assert_eq!(answer, refused(15, 2));
    assert_eq!(entries, [0xA5; 31]);
    assert_eq!(read(&[1, 0, 0, 0, 2, 0, 0]), 0);
}

#[test]
fn the_first_seven_bytes() {
    for count in 0..7 {
        assert_eq!(read(&TWO[..count]), refused(18, 0), "{count} bytes");
    }
    for version in [0, 2, 129, 255] {
        assert_eq!(read(&changed(0, version)), refused(18, 0));
    }
    for (at, byte) in [(1, 1), (2, 1), (3, 1), (4, 18), (4, 20), (4, 24)] {
        assert_eq!(read(&changed(at, byte)), refused(18, 0), "byte {at}");
    }
    // A count over 1,000 is there at once, one that is too big at the end.
    let mut slip = changed(5, 1_001_u16.to_be_bytes()[0]);
    slip[6] = 1_001_u16.to_be_bytes()[1];
    assert_eq!(read(&slip), refused(18, 0));
    slip[6] -= 1;
    assert_eq!(read(&slip), refused(18, 24));
}

#[test]
fn the_first_bad_entry() {
    assert_eq!(read(&changed(7, 0)), refused(18, 7));
    assert_eq!(read(&changed(13, 255)), refused(18, 7));
    assert_eq!(read(&changed(14, 255)), refused(18, 7));
    assert_eq!(read(&changed(22, 255)), refused(18, 15));
    assert_eq!(read(&changed(23, 255)), refused(18, 15));
    // A name that runs beyond the end, or leaves too little behind it.
    assert_eq!(read(&changed(15, 3)), refused(18, 15));
    assert_eq!(read(&changed(15, 255)), refused(18, 15));
    // A shorter one leaves a byte over.
    assert_eq!(read(&changed(15, 1)), refused(18, 23));
    assert_eq!(read(&changed(6, 1)), refused(18, 15));
    assert_eq!(read(&changed(6, 3)), refused(18, 24));
    // The second entry is bad too, but the first is met first.
    let mut slip = changed(23, 255);
    slip[7] = 0;
    assert_eq!(read(&slip), refused(18, 7));
    // Any file length will do.
    assert_eq!(read(&changed(9, 255)), 2);
}

#[test]
fn names_are_all_different() {
    let entry = |name: &[u8]| [&[name.len() as u8], name, &[0; 6]].concat();
    let slip = |names: &[&[u8]]| {
        let entries = names
            .iter()
            .map(|name| entry(name))
            .collect::<Vec<_>>()
            .concat();
        let rest = (entries.len() as u32 + 2).to_be_bytes();
        [
            &[1],
            &rest[..],
            &(names.len() as u16).to_be_bytes(),
            &entries,
        ]
        .concat()
    };
    assert_eq!(read(&slip(&[b"ab", b"a", b"abc", b"b"])), 4);
    assert_eq!(read(&slip(&[b"ab", b"a", b"ab", b"a"])), refused(18, 24));
    assert_eq!(read(&slip(&[b"A", b"a"])), 2);
    assert_eq!(read(&slip(&[b"\0", b"\0\0"])), refused(24, 7));
    assert_eq!(read(&slip(&[&[b'n'; 255]])), refused(24, 7));
}

#[test]
fn what_was_read_can_be_written_again() {
    let (_, entries) = both(32, |side, entries| side.slip_read(&TWO, entries));
    for room in [24, 25, 99] {
        let (answer, out) = both(room, |side, out| side.slip_write(&TWO, &entries, out));
        assert_eq!(answer, 24);
        assert_eq!(out, [&TWO[..], &vec![0xA5; room - 24]].concat());
    }
    let (answer, out) = both(23, |side, out| side.slip_write(&TWO, &entries, out));
    assert_eq!((answer, out), (refused(15, 24), vec![0xA5; 23]));
    assert_eq!(write(&[], &[]), 7);
}

#[test]
fn the_writers_first_bad_entry() {
    let names = b"abcde";
    let good = [0, 1, 9, 0];
    let bad = |entry| write(names, &[good, [1, 1, 1, 1], entry, [0, 0, 0, 0]]);
    assert_eq!(
        write(names, &[good, [1, 1, 1, 1], [2, 3, 1, 1]]),
        5 + 2 + 8 + 8 + 10
    );
    for entry in [
        [2, 0, 0, 0],
        [0, 256, 0, 0],
        [3, 3, 0, 0],
        [5, 1, 0, 0],
        [6, 0, 0, 0],
        [u32::MAX, 2, 0, 0],
        [2, 1, 0, 0x00FF],
        [2, 1, 0, 0xFF00],
        [2, 1, 0, 0x1_0000],
        [2, 1, 0, u32::MAX],
        [0, 1, 8, 5],
    ] {
        assert_eq!(bad(entry), refused(18, 2), "{entry:?}");
    }
    // The name may be the same although it stands elsewhere.
    assert_eq!(write(b"xx", &[[0, 1, 0, 0], [1, 1, 0, 0]]), refused(18, 1));
    assert_eq!(write(&[b'n'; 255], &[[0, 255, 0, 0]]), refused(24, 0));
}

#[test]
fn a_part_of_an_entry_is_bad() {
    let entries = bytes(&[[0, 1, 0, 0], [1, 1, 0, 0]]);
    for part in 17..32 {
        let (answer, _) = both(99, |side, out| {
            side.slip_write(b"ab", &entries[..part], out)
        });
        assert_eq!(answer, refused(18, 1));
    }
}

#[test]
fn a_thousand_entries_and_one_more() {
    let names: Vec<u8> = (0..2_002_u32)
        .map(|k| b' ' + (k / 2 / 32 * (1 - k % 2) + k / 2 % 32 * (k % 2)) as u8)
        .collect();
    let mut entries: Vec<[u32; 4]> = (0..1_001).map(|k| [2 * k, 2, k, 0]).collect();
    assert_eq!(write(&names, &entries), refused(18, 1_000));
    assert_eq!(write(&names, &entries[..1_000]), 7 + 9 * 1_000);
    entries[5][1] = 0;
    assert_eq!(write(&names, &entries), refused(18, 5));
    entries[5][1] = 2;
    entries[999][0] = 0;
    assert_eq!(write(&names, &entries), refused(18, 999));
}

/// To whoever looks names up by a number they are alike.
#[test]
fn names_that_are_alike() {
    let names = alike(512).concat().into_bytes();
    let mut entries: Vec<[u32; 4]> = (0..512).map(|k| [63 * k, 63, k, 0]).collect();
    let known = bytes(&entries);
    let (answer, slip) = both(40_000, |side, out| side.slip_write(&names, &known, out));
    assert_eq!(answer, 7 + 512 * 70);
    assert_eq!(read(&slip[..7 + 512 * 70]), 512);
    for first in [0, 7, 510] {
        entries[511][0] = 63 * first;
        assert_eq!(write(&names, &entries), refused(18, 511), "{first}");
        let mut slip = slip[..7 + 512 * 70].to_vec();
        let name = 8 + 70 * first as usize;
        slip.copy_within(name..name + 63, 8 + 70 * 511);
        assert_eq!(read(&slip), refused(18, 7 + 70 * 511), "{first}");
    }
}

/// At most 63 bytes, each from 32 to 126, after all of 18.
#[test]
fn names_fit_for_the_label() {
    assert_eq!(read(&changed(8, 31)), refused(24, 7));
    assert_eq!(read(&changed(8, 127)), refused(24, 7));
    assert_eq!(read(&changed(17, 0)), refused(24, 15));
    assert_eq!(read(&changed(8, b' ')), 2);
    assert_eq!(read(&changed(8, b'~')), 2);
    let mut both_faults = changed(8, 31);
    both_faults[23] = 255;
    assert_eq!(read(&both_faults), refused(18, 15));
    let long = |count: u8| {
        let name = vec![b'n'; usize::from(count)];
        [&[1, 0, 0, 0, count + 9, 0, 1, count], &name[..], &[0; 6]].concat()
    };
    assert_eq!(read(&long(63)), 1);
    assert_eq!(read(&long(64)), refused(24, 7));
    let entry = Entry {
        name_offset: 8,
        name_length: 1,
        ..Entry::default()
    };
    assert!(second::write_slip(&changed(8, 31), &[entry]).is_err());
    assert!(second::write_slip(&changed(8, 32), &[entry]).is_ok());
}
