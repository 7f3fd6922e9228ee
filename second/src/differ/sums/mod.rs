//! Both sides over sums: files against entries, files cut into parts, and
//! states of any kind.

pub mod erring;
mod parts;

use super::compare::Pair;
use super::run::{share, Cases, Failure, Plan, Tally};
use crate::boundary::Summing;

/// The first stream of numbers of these families.
const STREAM: u64 = 600;

/// Runs all families of sums.
pub fn run<L: Summing, R: Summing>(
    plan: Plan,
    pair: &mut Pair<L, R>,
) -> Result<Tally, Box<Failure>> {
    #[rustfmt::skip]
    let families: [Cases<Pair<L, R>>; 3] = [
        Cases("Sums",     "files against entries",     share(300, 300), parts::entry),
        Cases("SumParts", "files cut into parts",      share(300, 300), parts::cuts),
        Cases("States",   "states of any kind joined", share(500, 300), parts::states),
    ];
    plan.all(STREAM, &families, pair)
}
