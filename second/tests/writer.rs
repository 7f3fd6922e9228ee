//! The writer: its refusals in their order, its limits, and that what is
//! written reads back, and is written again as it was.

mod common;
use common::{pair, triangle};
use second::{check, name, tables, write, LIMIT};

const FLOATS: [f32; 9] = [0.0, 0.0, 0.0, 1.0, 0.0, 0.0, 0.0, 1.0, 0.0];

/// Writes into bytes of 7 and answers; a refusal must leave them so.
fn ask(name: &[u8], floats: &[f32], corners: &[u16], room: usize) -> Result<usize, (u32, usize)> {
    let mut out = vec![7; room];
    let answer = write(name, floats, corners, &mut out).map_err(pair);
    let kept = *answer.as_ref().unwrap_or(&0);
    assert!(out[kept..].iter().all(|byte| *byte == 7));
    answer
}

#[test]
fn the_triangle_is_written() {
    let mut out = [7; 90];
    assert_eq!(write(b"A", &FLOATS, &[0, 1, 2], &mut out), Ok(86));
    assert_eq!(out[..86], triangle());
    assert_eq!(out[86..], [7; 4]);
    assert_eq!(ask(b"", &[], &[], 41), Ok(41));
}

#[test]
fn refusals_in_order() {
    let (nan, long) = ([f32::NAN; 4], vec![0_u16; 196_608]);
    assert_eq!(ask(b"ab\0\0", &nan, &[0; 4], 0), Err((9, 2)));
    assert_eq!(ask(b"ab", &nan, &[0; 5], 0), Err((13, 4)));
    assert_eq!(ask(b"ab", &nan[..3], &[0; 5], 0), Err((13, 5)));
    assert_eq!(ask(b"ab", &nan[..3], &long, 0), Err((13, 196_608)));
    assert_eq!(
        ask(b"ab", &[1.0, 2.0, f32::INFINITY], &[1, 0, 0], 0),
        Err((11, 2))
    );
    assert_eq!(ask(b"ab", &FLOATS, &[0, 2, 3], 0), Err((12, 2)));
    assert_eq!(ask(b"ab", &[], &[0, 2, 3], 0), Err((12, 0)));
    assert_eq!(ask(b"ab", &FLOATS, &[0, 2, 1], 86), Err((15, 87)));
    assert_eq!(ask(b"ab", &FLOATS, &[0, 2, 1], 87), Ok(87));
}

#[test]
fn names_fit_for_the_label() {
    let named = |name: &[u8]| ask(name, &[], &[], 999);
    assert_eq!(named(&[b'~'; 63]), Ok(41 + 63));
    assert_eq!(named(&[b'~'; 64]), Err((24, 63)));
    assert_eq!(named(&[b'~'; 99]), Err((24, 63)));
    assert_eq!(named(b"ab\x1F\x7F"), Err((24, 2)));
    assert_eq!(named(&[&[b' '; 62][..], &[255; 9]].concat()), Err((24, 62)));
    assert_eq!(named(&[&[b' '; 70][..], &[255; 9]].concat()), Err((24, 63)));
    assert_eq!(named(&[&[b' '; 70][..], &[255, 0]].concat()), Err((9, 71)));
    assert_eq!(ask(b"\n", &[f32::NAN], &[9], 0), Err((24, 0)));
}

#[test]
fn limits() {
    let floats = vec![0.0; 196_605];
    let full = |name: &[u8], room| ask(name, &floats, &[0; 3 * 32_764], room);
    assert_eq!(full(b"abc", LIMIT), Ok(LIMIT));
    assert_eq!(full(b"abc", LIMIT - 1), Err((15, LIMIT)));
    assert_eq!(full(b"abcd", 0), Err((1, 0)));
    let name = vec![b'x'; LIMIT - 41];
    assert_eq!(ask(&name, &[], &[], LIMIT), Err((24, 63)));
    assert_eq!(ask(b"", &floats, &[], LIMIT), Ok(41 + 12 * 65_535));
    assert_eq!(ask(b"", &floats, &[0; 3 * 32_760], LIMIT), Ok(1_048_541));
    assert_eq!(ask(b"", &floats, &[0; 3 * 32_765], LIMIT), Err((1, 0)));
    let over = vec![0.0; 196_608];
    assert_eq!(ask(b"", &over, &[1, 2], LIMIT), Err((13, 196_608)));
}

#[test]
fn what_is_written_reads_back() {
    let floats = [f32::MAX, -0.0, f32::from_bits(1), 1.5, -2.5, 0.1];
    let mut file = [0; 41 + 5 + 24 + 16];
    let corners = [0, 1, 0, 1, 1, 0];
    let size = write(b"plane", &floats, &corners, &mut file).unwrap();
    assert_eq!(size, file.len());
    assert!(check(&file).is_ok());
    let (offset, length) = name(&file, 0).unwrap();
    assert_eq!(&file[offset..offset + length], b"plane");
    let (mut vertices, mut read) = ([0.0; 6], [0; 6]);
    assert_eq!(tables(&file, 0, &mut vertices, &mut read), Ok((2, 2)));
    assert_eq!(vertices.map(f32::to_bits), floats.map(f32::to_bits));
    assert_eq!(read, corners);
}
