//! What a reader gets beyond the verdict: room, mesh numbers, names and
//! boxes, and what lent rows hold afterwards.

mod common;
use common::{chunk, faces, figure, object, pair, triangle, vertices};
use second::{bounding_box, list, name, tables, RECORD};

/// Two meshes: one point and a face in the first, nothing in the second.
fn two() -> Vec<u8> {
    let first = object(&[&faces(&[[0; 3]; 2], &[]), &vertices(&[1.0, 2.0, 3.0])]);
    let light = chunk(0x4000, &[b"lamp\0", &chunk(0x4600, &[&[0; 12]])]);
    let second = chunk(0x4000, &[b"bare\0", &chunk(0x4100, &[])]);
    figure(&[&first, &light, &second])
}

#[test]
fn room_is_judged_last_and_in_numbers() {
    let (mut points, mut corners) = ([7.0; 9], [7; 6]);
    let mut ask = |file: &[u8], mesh, p, c| {
        let answer = tables(file, mesh, &mut points[..p], &mut corners[..c]);
        assert!(answer.is_ok() || (points == [7.0; 9] && corners == [7; 6]));
        answer.map_err(pair)
    };
    assert_eq!(ask(&two(), 0, 2, 5), Err((15, 3)));
    assert_eq!(ask(&two(), 0, 2, 6), Err((15, 3)));
    assert_eq!(ask(&two(), 0, 3, 5), Err((15, 6)));
    assert_eq!(ask(&two(), 2, 0, 0), Err((16, 2)));
    assert_eq!(ask(&two(), u32::MAX, 0, 0), Err((16, 2)));
    assert_eq!(ask(&two(), 1, 0, 0), Ok((0, 0)));
    assert_eq!(ask(&two(), 0, 3, 6), Ok((1, 2)));
    let mut bad = triangle();
    bad[82] = 3;
    assert_eq!(
        tables(&bad, 99, &mut [], &mut []).map_err(pair),
        Err((12, 70))
    );
}

#[test]
fn a_record_in_part_is_no_room() {
    let file = figure(&[]);
    let mut row = [7; 2 * RECORD + 1];
    let short = &mut row[..2 * RECORD - 1];
    assert_eq!(list(&file, short).map_err(pair), Err((15, 2)));
    assert_eq!(row, [7; 2 * RECORD + 1]);
    assert_eq!(list(&file, &mut row).unwrap().records, 2);
    let figure = [0x4D4D, 0, 12, 0, 0, 0, 2];
    let edit = [0x3D3D, 6, 6, 1, 0, 0, 2];
    assert_eq!(row[..], [&figure[..], &edit, &[7]].concat());
}

#[test]
fn groups_and_their_depth_are_listed() {
    let group = chunk(0x4130, &[b"steel\0\x01\0\0\0"]);
    let file = common::mesh(&[&vertices(&[0.0; 3]), &faces(&[[0; 3]], &[&group])]);
    let mut row = [0; 7 * RECORD];
    assert_eq!(list(&file, &mut row).unwrap().records, 7);
    let last = [[0x4120, 45, 32, 4, 3, 10, 7], [0x4130, 61, 16, 5, 5, 10, 7]];
    assert_eq!(row[5 * RECORD..], *last.as_flattened());
}

#[test]
fn a_record_says_where_its_branch_ends() {
    let private = chunk(0x8123, &[b"1041"]);
    let file = figure(&[&chunk(0x1470, &[]), &private, &two()[12..]]);
    let mut row = [0; 20 * RECORD];
    let records = list(&file, &mut row).unwrap().records;
    let next: Vec<u32> = row.chunks(RECORD).map(|record| record[6]).collect();
    // 4D4D, 3D3D, 1470; 4000, 4100, 4120, 4110; 4000, 4600; 4000, 4100
    assert_eq!(next[..records], [11, 11, 3, 7, 7, 6, 7, 9, 9, 11, 11]);
}

#[test]
fn names_leave_out_the_zero() {
    assert_eq!(name(&two(), 0), Ok((18, 0)));
    let at = two().windows(5).position(|bytes| bytes == b"bare\0");
    assert_eq!(
        name(&two(), 1).map(|span| (Some(span.0), span.1)),
        Ok((at, 4))
    );
    assert_eq!(name(&two(), 2).map_err(pair), Err((16, 2)));
}

/// The box of a mesh of these bits, as bits.
fn boxed(bits: &[u32]) -> [[u32; 3]; 3] {
    let floats: Vec<f32> = bits.iter().map(|bits| f32::from_bits(*bits)).collect();
    let found = bounding_box(&common::mesh(&[&vertices(&floats)]), 0).unwrap();
    [found.low, found.high, found.centre].map(|corner| corner.map(f32::to_bits))
}

#[test]
fn the_box_takes_the_first_of_equals() {
    const MINUS: u32 = 0x8000_0000;
    let found = boxed(&[0, MINUS, 0, MINUS, 0, MINUS]);
    assert_eq!(found, [[0, MINUS, 0], [0, MINUS, 0], [0, MINUS, 0]]);
    let found = boxed(&[MINUS, 1, MINUS, 0, 0, 0xBF80_0000]);
    assert_eq!(found[0], [MINUS, 0, 0xBF80_0000]);
    assert_eq!(found[1], [MINUS, 1, MINUS]);
}

#[test]
fn the_centre_is_two_halves_and_a_sum() {
    const MINUS: u32 = 0x8000_0000;
    assert_eq!(boxed(&[1, MINUS | 1, 3])[2], [0, MINUS, 4]);
    assert_eq!(boxed(&[1, MINUS | 1, 0, 0, MINUS, 0])[2], [0, MINUS, 0]);
    assert_eq!(boxed(&[MINUS | 1, 0, 0, 1, 0, 0])[2][0], 0);
    let most = f32::MAX.to_bits();
    assert_eq!(boxed(&[most; 3])[2], [most; 3]);
    assert_eq!(boxed(&[most, 0, 0, most | MINUS, 0, 0])[2], [0; 3]);
}

#[test]
fn a_box_of_nothing_is_empty() {
    assert_eq!(bounding_box(&two(), 1).map_err(pair), Err((17, 0)));
    assert_eq!(bounding_box(&two(), 2).map_err(pair), Err((16, 2)));
    assert_eq!(bounding_box(&two(), 0).unwrap().low, [1.0, 2.0, 3.0]);
}
