//! The calls over Cinema 4D figures that are timed, at the limit: empty
//! objects, objects of many parts, textures, sub-chunks of MAT4, and chunks
//! that are skipped.

use crate::calls::accepted;
use crate::measure::{both, Times};
use second::boundary::{C4ds, Right, Second};
use second::{read_c4d, LIMIT};
use std::hint::black_box;

/// A figure: what it is of, and its bytes.
pub struct Figure {
    pub what: &'static str,
    pub bytes: Vec<u8>,
}

/// One figure of each kind, all of them as long as they may be.
pub fn all() -> Vec<Figure> {
    let whole = object(&[part(16, 0), part(17, 0), part(18, 0), part(19, 0)].concat());
    let textured = object(&texture().repeat(8));
    vec![
        figure("empty objects", objects(&object(&[]))),
        figure("objects of four parts", objects(&whole)),
        figure("objects of 8 textures", objects(&textured)),
        figure("MAT4 of small parts", materials()),
        figure("chunks that are skipped", filled(&[], &chunk(b"SKIP", &[]))),
    ]
}

/// The check and the list of a figure: the list into lent rows on both sides.
pub fn times(file: &[u8], turns: usize) -> [(&'static str, Times); 2] {
    let right = Right::default();
    let left = || {
        black_box(read_c4d(black_box(file))).unwrap();
    };
    let check = both(turns, left, || accepted(right.c4d_check(black_box(file))));
    let lent = || (vec![0; 12 * LIMIT / 8], vec![0; 4 * LIMIT / 68]);
    let ((mut rows, mut numbers), (mut others, mut more)) = (lent(), lent());
    let left = || accepted(Second.c4d_list(black_box(file), &mut others, &mut more));
    let list = both(turns, left, || {
        accepted(right.c4d_list(black_box(file), &mut rows, &mut numbers))
    });
    [("Check", check), ("List", list)]
}

/// A file of chunks, filled up to the limit by one that is skipped.
fn figure(what: &'static str, chunks: Vec<u8>) -> Figure {
    let rest = LIMIT - 12 - chunks.len() - 8;
    let size = (LIMIT as u32 - 8).to_be_bytes();
    let fill = chunk(b"FILL", &vec![0; rest]);
    let bytes = [&b"FORM"[..], &size, b"MC4D", &chunks, &fill].concat();
    Figure { what, bytes }
}

/// As many times as fits behind what stands before, with room for two headers.
fn filled(before: &[u8], piece: &[u8]) -> Vec<u8> {
    let times = (LIMIT - 12 - 16 - before.len()) / piece.len();
    [before, &piece.repeat(times)].concat()
}

fn chunk(name: &[u8; 4], body: &[u8]) -> Vec<u8> {
    [&name[..], &(body.len() as u32).to_be_bytes(), body].concat()
}

fn objects(object: &[u8]) -> Vec<u8> {
    chunk(b"OBJ5", &filled(&[], object))
}

/// Sub-chunks of eight bytes, and MAT_END.
fn materials() -> Vec<u8> {
    let parts = filled(&[0; 4], &[0, 1, 0, 4, 1, 2, 3, 4]);
    chunk(b"MAT4", &[&parts[4..], &[0; 4]].concat())
}

/// A sub-chunk of OBJ5 with a body of zeros.
fn part(id: u8, size: usize) -> Vec<u8> {
    let size = size as u32;
    [
        &[id, (size >> 16) as u8, (size >> 8) as u8, size as u8][..],
        &vec![0; size as usize],
    ]
    .concat()
}

fn object(parts: &[u8]) -> Vec<u8> {
    [&part(1, 0)[..], parts, &part(0, 0)].concat()
}

/// A texture without a material.
fn texture() -> Vec<u8> {
    [&part(23, 64)[..64], &[255; 4]].concat()
}
