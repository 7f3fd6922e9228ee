//! Every bit of the triangle turned: which are found, and that the files in
//! a folder come out as a table.

mod common;
use common::{chunk, figure, triangle};
use second::boundary::Second;
use second::differ::compare::Pair;
use second::differ::guarded::guarded;
use second::differ::kinds::Kind;
use second::differ::real;
use second::differ::turned::{turned, Counts, Turned};

/// What becomes of every bit of a file.
fn all_bits(file: &[u8]) -> Turned {
    turned(file, &mut Pair::new(Second, Second)).unwrap()
}

/// Refused, the same, another, and of these with other chunks.
fn counts([refused, same, other, chunks]: [u64; 4]) -> Counts {
    Counts {
        refused,
        same,
        other,
        chunks,
    }
}

#[test]
fn bits_of_the_triangle() {
    let Turned { all, kinds } = all_bits(&triangle());
    // The name's one letter and the flag word: all that no answer shows. Of
    // the letter two bits make it one that no label takes.
    assert_eq!(all.same, 6 + 16);
    assert_eq!(all.refused + all.same + all.other, 8 * 86);
    let mut sum = Counts::default();
    kinds.values().for_each(|counts| sum.add(*counts));
    assert_eq!(sum, all);
    assert_eq!(kinds[&Kind::Length], counts([6 * 32, 0, 0, 0]));
    assert_eq!(kinds[&Kind::Fixed], counts([0, 16, 0, 0]));
    assert_eq!(kinds[&Kind::Coordinate].chunks, 0);
    assert!(!kinds.contains_key(&Kind::UnlistedInside));
}

/// Every bit of every good sample, of each format: structure alone finds some
/// of them, a slip all.
#[test]
fn a_slip_finds_every_bit_of_the_samples() {
    let samples = concat!(env!("CARGO_MANIFEST_DIR"), "/../samples");
    for name in [
        "edition/adze.3ds",
        "edition/chisel.3ds",
        "edition/mallet.3ds",
        "edition/plane.3ds",
        "edition/saw.3ds",
        "edition/vice.3ds",
        "old/gouge.3ds",
        "caligari/marking-gauge.cob",
        "caligari/try-square.cob",
        "c4d/bench.c4d",
    ] {
        let file = std::fs::read(format!("{samples}/{name}")).unwrap();
        let all = guarded(&file).unwrap();
        assert_eq!(all.bits, 8 * file.len() as u64, "{name}");
        assert_eq!(all.found, all.bits, "{name}");
        assert!(all.refused > 0 && all.refused < all.bits, "{name}");
    }
}

/// A figure of 26 bytes with an unlisted chunk and a 1420: one bit of the
/// unlisted chunk's length, 6 to 14, hides the 1420.
#[test]
fn an_unlisted_length_hides_a_chunk() {
    let kinds = all_bits(&figure(&[&chunk(0x8123, &[]), &chunk(0x1420, &[&[0; 2]])])).kinds;
    assert_eq!(kinds[&Kind::UnlistedLength], counts([31, 0, 1, 1]));
    assert_eq!(kinds[&Kind::Length], counts([3 * 32, 0, 0, 0]));
}

/// An unlisted chunk of 8 bytes behind a 3D3D of 6: one bit of the
/// known chunk's length, 6 to 14, takes it in, and the chunks are the same.
#[test]
fn a_known_length_takes_in_an_unlisted_chunk() {
    let parts = [chunk(0x3D3D, &[]), chunk(0x8123, &[&[0; 2]])].concat();
    let kinds = all_bits(&chunk(0x4D4D, &[&parts])).kinds;
    assert_eq!(kinds[&Kind::Length], counts([2 * 32 - 1, 0, 1, 0]));
    assert_eq!(kinds[&Kind::UnlistedInside], counts([0, 16, 0, 0]));
}

#[test]
fn a_refused_file_has_no_kinds() {
    let turned = all_bits(&triangle()[..85]);
    assert!(turned.kinds.is_empty());
    assert!(turned.all.refused > 0);
}

#[test]
fn every_bit_of_every_length_is_found() {
    for header in [0, 6, 12, 20, 26, 70] {
        for bit in 8 * (header + 2)..8 * (header + 6) {
            let mut file = triangle();
            file[bit / 8] ^= 1 << (bit % 8);
            assert!(second::check(&file).is_err(), "bit {bit}");
        }
    }
}

#[test]
fn lines_of_the_table() {
    let mut pair = Pair::new(Second, Second);
    let line = real::line(&triangle(), &mut pair).unwrap();
    let words: Vec<&str> = line.split_whitespace().collect();
    assert_eq!(words, ["86", "accepted", "1", "3", "1"]);
    let line = real::line(&[], &mut pair).unwrap();
    let words: Vec<&str> = line.split_whitespace().collect();
    assert_eq!(words, ["0", "refused", "2", "0", "-", "-", "-"]);
}
