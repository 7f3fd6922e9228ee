//! The rescue, timed on both sides into lent rows.

use crate::calls::accepted;
use crate::measure::{both, Times};
use second::boundary::{Boundary, Right, Second};
use second::LIMIT;
use std::hint::black_box;

/// The rescue of a figure.
pub fn times(file: &[u8], turns: usize) -> Times {
    let right = Right::default();
    let lent = || (vec![0; 12 * LIMIT / 6], vec![0; LIMIT]);
    let ((mut cuts, mut out), (mut others, mut other)) = (lent(), lent());
    let left = || accepted(Second.rescue(black_box(file), &mut others, &mut other));
    both(turns, left, || {
        accepted(right.rescue(black_box(file), &mut cuts, &mut out))
    })
}
