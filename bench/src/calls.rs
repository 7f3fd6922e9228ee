//! The calls that are timed, each on both sides: the second reader through
//! its own functions, the other through the boundary.

use crate::figures::{corners, vertices, Figure};
use crate::measure::{both, Times};
use second::boundary::{refusal, Boundary, Right, RECORD_BYTES};
use second::Refusal;
use std::hint::black_box;

/// The calls over a file.
#[derive(Clone, Copy, Debug)]
pub enum Call {
    Check,
    List,
    Tables,
    Box,
    Meshes,
}

pub const CALLS: [Call; 5] = [
    Call::Check,
    Call::List,
    Call::Tables,
    Call::Box,
    Call::Meshes,
];

/// The rows and slices that are lent, large enough for any figure; they are
/// made once, and not cleared between calls.
pub struct Lent {
    row: Vec<u32>,
    floats: Vec<f32>,
    words: Vec<u16>,
    records: Vec<u8>,
    vertices: Vec<u8>,
    corners: Vec<u8>,
}

impl Lent {
    pub fn new() -> Lent {
        let (records, numbers) = (second::LIMIT / 6, 196_605);
        Lent {
            row: vec![0; second::RECORD * records],
            floats: vec![0.0; numbers],
            words: vec![0; numbers],
            records: vec![0; RECORD_BYTES * records],
            vertices: vec![0; 4 * numbers],
            corners: vec![0; 2 * numbers],
        }
    }

    /// Times one call over a figure on both sides.
    pub fn time(&mut self, call: Call, figure: &Figure, turns: usize) -> Times {
        let (file, mesh, right) = (&figure.bytes[..], figure.mesh, Right::default());
        let Lent {
            row,
            floats,
            words,
            records,
            vertices,
            corners,
        } = self;
        match call {
            Call::Check => {
                let left = || done(second::check(black_box(file)));
                both(turns, left, || accepted(right.check(black_box(file))))
            }
            Call::List => {
                let left = || done(second::list(black_box(file), row));
                both(turns, left, || {
                    accepted(right.list(black_box(file), records))
                })
            }
            Call::Tables => {
                let left = || done(second::tables(black_box(file), mesh, floats, words));
                let right = || accepted(right.tables(black_box(file), mesh, vertices, corners));
                both(turns, left, right)
            }
            Call::Box => {
                let mut nine = [0; 36];
                let left = || done(second::bounding_box(black_box(file), mesh));
                let right = || accepted(right.bounding_box(black_box(file), mesh, &mut nine));
                both(turns, left, right)
            }
            Call::Meshes => {
                let left = || done(second::meshes(black_box(file)));
                both(turns, left, || {
                    accepted(right.meshes(black_box(file), records))
                })
            }
        }
    }
}

/// What the second reader answered, which is no refusal.
fn done<T>(answer: Result<T, Refusal>) {
    assert!(black_box(answer).is_ok());
}

/// What the other side answered, which is no refusal.
pub fn accepted(answer: u64) {
    assert!(refusal(black_box(answer)).is_none());
}

/// Times the writer on a figure of about a size, on both sides.
pub fn write(size: usize, turns: usize) -> (usize, Times) {
    let n = (size - 60) / 20;
    let (vertices, corners) = (vertices(n), corners(n, n));
    let (mut ours, mut theirs) = (vec![0; size], vec![0; size]);
    let (name, right) = (b"written", Right::default());
    let left = || {
        done(second::write(
            name,
            black_box(&vertices),
            &corners,
            &mut ours,
        ));
    };
    let right = || {
        accepted(right.write(name, black_box(&vertices), &corners, &mut theirs));
    };
    (48 + 20 * n, both(turns, left, right))
}
