//! Two ways of doing one thing, timed turn by turn on the same input, and
//! the median of many.

use std::time::Instant;

/// The median times of two ways, in microseconds.
#[derive(Clone, Copy, Debug)]
pub struct Times {
    pub left: f64,
    pub right: f64,
}

/// Times two ways, turn by turn, the first of each turn changing.
pub fn both(turns: usize, mut left: impl FnMut(), mut right: impl FnMut()) -> Times {
    let (mut lefts, mut rights) = (Vec::new(), Vec::new());
    left();
    right();
    for turn in 0..turns {
        if turn % 2 == 0 {
            lefts.push(timed(&mut left));
            rights.push(timed(&mut right));
        } else {
            rights.push(timed(&mut right));
            lefts.push(timed(&mut left));
        }
    }
    Times {
        left: median(lefts),
        right: median(rights),
    }
}

/// The median time of one way.
pub fn one(turns: usize, mut way: impl FnMut()) -> f64 {
    way();
    median((0..turns).map(|_| timed(&mut way)).collect())
}

/// The microseconds that one call takes.
fn timed(way: &mut impl FnMut()) -> f64 {
    let begin = Instant::now();
    way();
    begin.elapsed().as_secs_f64() * 1e6
}

fn median(mut times: Vec<f64>) -> f64 {
    times.sort_by(f64::total_cmp);
    times[times.len() / 2]
}
