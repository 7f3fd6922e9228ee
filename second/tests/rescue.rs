//! The rescue of damaged figures: what is cut and what is left, faults outside,
//! every bit of some figures turned; asked of both sides.

mod common;
use common::{chunk, faces, figure, object, triangle, vertices};
use second::boundary::{refused, Boundary, Right, Second, CUT_BYTES};
use second::differ::compare::Pair;
use second::differ::random::Random;

/// What both sides answer, which is the same, and what becomes of the rooms.
fn both(file: &[u8], cuts: usize, out: usize) -> (u64, Vec<u8>, Vec<u8>) {
    let [left, right] = [&Second as &dyn Boundary, &Right::default()].map(|side| {
        let (mut cuts, mut out) = (vec![0xA5; cuts], vec![0xA5; out]);
        (side.rescue(file, &mut cuts, &mut out), cuts, out)
    });
    assert_eq!(right, left, "right, left");
    left
}

fn numbers(cuts: &[[u32; 3]]) -> Vec<u8> {
    let numbers = cuts.as_flattened().iter();
    numbers.flat_map(|number| number.to_le_bytes()).collect()
}

/// A rescue makes these cuts and leaves this figure.
fn rescued(file: &[u8], cuts: &[[u32; 3]], mended: &[u8]) {
    let known = (cuts.len() as u64, numbers(cuts), mended.to_vec());
    assert_eq!(both(file, CUT_BYTES * cuts.len(), mended.len()), known);
}

/// 66 bytes; the bad one has a corner too high.
fn good() -> Vec<u8> {
    object(&[&vertices(&[1.0; 3]), &faces(&[[0; 3]], &[])])
}

fn bad() -> Vec<u8> {
    object(&[&vertices(&[1.0; 3]), &faces(&[[1; 3]], &[])])
}

#[test]
fn an_accepted_file_comes_back() {
    for file in [
        triangle(),
        figure(&[]),
        figure(&[&chunk(0x8123, &[&[7; 9]])]),
    ] {
        rescued(&file, &[], &file);
    }
}

#[test]
fn children_that_fail_are_cut() {
    let size = good().len() as u32;
    let private = chunk(0x8123, &[&[7; 9]]);
    let file = figure(&[
        &bad(),
        &private,
        &good(),
        &chunk(0x1420, &[&[0; 3]]),
        &bad(),
    ]);
    let places = [12, 12 + 15 + 2 * size, 12 + 15 + 2 * size + 9];
    let cuts = [
        [places[0], 12, size],
        [places[1], 10, 9],
        [places[2], 12, size],
    ];
    rescued(&file, &cuts, &figure(&[&private, &good()]));
    rescued(&figure(&[&bad()]), &[[12, 12, size]], &figure(&[]));
    // A bad header deeper than a child takes only that child.
    let deeper = chunk(0x4000, &[&[0], &[0x10, 0x40, 5, 0, 0, 0]]);
    rescued(
        &figure(&[&deeper, &good()]),
        &[[12, 4, 13]],
        &figure(&[&good()]),
    );
}

#[test]
fn from_a_bad_header_on_all_is_cut() {
    let size = good().len() as u32;
    for (header, number) in [([1, 2, 5, 0, 0, 0], 4), ([1, 2, 0, 9, 0, 0], 5)] {
        let file = figure(&[&good(), &header, &good()]);
        let cuts = [[12 + size, number, 6 + size]];
        rescued(&file, &cuts, &figure(&[&good()]));
    }
    for count in 1..6 {
        let file = figure(&[&bad(), &good(), &vec![0x41; count]]);
        let cuts = [[12, 12, size], [12 + 2 * size, 6, count as u32]];
        rescued(&file, &cuts, &figure(&[&good()]));
    }
}

#[test]
fn faults_outside_are_answered() {
    let edit = chunk(0x3D3D, &[&bad()]);
    let version = chunk(0x0002, &[&[0; 3]]);
    let end = 6 + edit.len();
    let answer = |parts: &[&[u8]]| both(&chunk(0x4D4D, parts), 99, 999).0;
    assert_eq!(answer(&[&version, &edit]), refused(10, 6));
    assert_eq!(answer(&[&edit, &version]), refused(10, end));
    assert_eq!(answer(&[&edit, &edit]), refused(8, end));
    assert_eq!(answer(&[&edit, &good()]), refused(7, end));
    assert_eq!(answer(&[&edit, &[0; 3]]), refused(6, end));
    assert_eq!(answer(&[&edit, &[0; 6]]), refused(4, end));
    assert_eq!(answer(&[&good()]), refused(7, 6));
    assert_eq!(answer(&[]), refused(14, 0));
    assert_eq!(both(&[], 0, 0).0, refused(2, 0));
    let mut short = figure(&[&bad()]);
    short[8] = 5;
    assert_eq!(both(&short, 0, 0).0, refused(4, 6));
    assert_eq!(both(&vec![0; second::LIMIT + 1], 0, 0).0, refused(1, 0));
}

#[test]
fn cuts_need_room_before_the_figure() {
    let file = figure(&[&bad(), &good(), &bad()]);
    let left = figure(&[&good()]).len();
    for (cuts, out, needed) in [(0, 0, 2), (23, 999, 2), (24, left - 1, left), (24, 0, left)] {
        let known = (refused(15, needed), vec![0xA5; cuts], vec![0xA5; out]);
        assert_eq!(both(&file, cuts, out), known);
    }
    let (answer, cuts, out) = both(&file, 30, left + 3);
    assert_eq!(
        (answer, &cuts[24..], &out[left..]),
        (2, &[0xA5; 6][..], &[0xA5; 3][..])
    );
}

#[test]
fn every_bit_turned_can_be_judged() {
    let rich = figure(&[
        &good(),
        &chunk(0x8123, &[&[7; 9]]),
        &good(),
        &chunk(0x1470, &[]),
    ]);
    let mut pair = Pair::new(Second, Right::default());
    let mut random = Random::of_case(7, 0, 0);
    for mut file in [triangle(), rich] {
        for bit in 0..8 * file.len() {
            file[bit / 8] ^= 1 << (bit % 8);
            pair.rescued(&file, &mut random)
                .unwrap_or_else(|found| panic!("bit {bit}\n{found}"));
            file[bit / 8] ^= 1 << (bit % 8);
        }
    }
}
