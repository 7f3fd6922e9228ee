//! The calls over Caligari figures that are timed, at the limit: chunks that
//! are skipped, groups that hang on each other or on none, small meshes, and
//! one large mesh.

use crate::calls::accepted;
use crate::measure::{both, Times};
use second::boundary::{Cobs, Right, Second};
use second::{read_cob, LIMIT};
use std::hint::black_box;

/// A figure: what it is of, and its bytes.
pub struct Figure {
    pub what: &'static str,
    pub bytes: Vec<u8>,
}

/// One figure of each kind, all of them as long as they may be.
pub fn all() -> Vec<Figure> {
    let skipped = |number| chunk(b"Unit", 1, number, 0, &[]);
    let roots = |number| chunk(b"Grou", 1, scattered(number), 0, &placed());
    let chain = |number| chunk(b"Grou", 1, number, number - 1, &placed());
    let small = |number| chunk(b"PolH", 2, number, 0, &mesh(8, 12));
    let large = |number| chunk(b"PolH", 2, number, 0, &mesh(20_000, 24_000));
    vec![
        figure("Caligari chunks skipped", &skipped),
        figure("groups on none", &roots),
        figure("groups in a chain", &chain),
        figure("small Caligari meshes", &small),
        figure("a large Caligari mesh", &large),
    ]
}

/// The check and the list of a figure: the list into lent rows on both sides.
pub fn times(file: &[u8], turns: usize) -> [(&'static str, Times); 2] {
    let right = Right::default();
    let left = || {
        black_box(read_cob(black_box(file))).unwrap();
    };
    let check = both(turns, left, || accepted(right.cob_check(black_box(file))));
    let (mut rows, mut others) = (vec![0; 24 * LIMIT / 20], vec![0; 24 * LIMIT / 20]);
    let left = || accepted(Second.cob_list(black_box(file), &mut others));
    let list = both(turns, left, || {
        accepted(right.cob_list(black_box(file), &mut rows))
    });
    [("Check", check), ("List", list)]
}

/// The header, as many chunks as fit, numbered from 1, one that is skipped and
/// fills the file up, and the end.
fn figure(what: &'static str, kind: &dyn Fn(u32) -> Vec<u8>) -> Figure {
    let mut bytes = b"Caligari V00.01BLH             \n".to_vec();
    let mut number = 1;
    let mut next = kind(number);
    while bytes.len() + next.len() + 40 <= LIMIT {
        bytes.extend(next);
        number += 1;
        next = kind(number);
    }
    let rest = vec![0; LIMIT - bytes.len() - 40];
    bytes.extend(chunk(b"Fill", 1, u32::MAX, 0, &rest));
    bytes.extend(ended());
    Figure { what, bytes }
}

/// A chunk of version 0 and a minor number.
fn chunk(letters: &[u8; 4], minor: u16, number: u32, parent: u32, body: &[u8]) -> Vec<u8> {
    let numbers = [number, parent, body.len() as u32].map(u32::to_le_bytes);
    let version = [[0, 0], minor.to_le_bytes()].concat();
    [&letters[..], &version, &numbers.concat(), body].concat()
}

fn ended() -> Vec<u8> {
    let mut end = chunk(b"END ", 0, 0, 0, &[]);
    end[4] = 1;
    end
}

/// Numbers in no order, none of them twice.
fn scattered(number: u32) -> u32 {
    number.wrapping_mul(2_654_435_761)
}

/// No dupecount, a name of one letter, axes and position.
fn placed() -> Vec<u8> {
    [&[0, 0, 1, 0, b'g'][..], &[0; 96]].concat()
}

/// A PolH of so many vertices and triangles, with one texture vertex.
fn mesh(n: u32, f: u32) -> Vec<u8> {
    let floats = (0..3 * n).flat_map(|number| (number as f32).to_le_bytes());
    let corners = |face: u32| (0..3).flat_map(move |corner| [(face + corner) % n, 0]);
    let triangle = move |face: u32| {
        let pairs = corners(face).flat_map(u32::to_le_bytes);
        [0, 3, 0, 0, 0].into_iter().chain(pairs)
    };
    let counted = |count: u32| count.to_le_bytes().into_iter();
    let lists = counted(n).chain(floats).chain(counted(1)).chain([0; 8]);
    let faces = counted(f).chain((0..f).flat_map(triangle));
    placed().into_iter().chain(lists).chain(faces).collect()
}
