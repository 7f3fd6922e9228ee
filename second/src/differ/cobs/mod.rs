//! Both sides over Caligari figures: grown with all that is to be said of them,
//! damaged, and as long as they may be.

mod asked;
pub mod erring;
mod grow;
mod harm;

use super::compare::Pair;
use super::drafts::{damaged, faulty, long, valid};
use super::run::{few, share, Cases, Failure, Plan, Tally};
use crate::boundary::Cobs;
use grow::File;

/// The first stream of numbers of these families.
const STREAM: u64 = 300;

/// Runs all families of Caligari figures.
pub fn run<L: Cobs, R: Cobs>(plan: Plan, pair: &mut Pair<L, R>) -> Result<Tally, Box<Failure>> {
    #[rustfmt::skip]
    let families: [Cases<Pair<L, R>>; 4] = [
        Cases("Cobs",      "valid Caligari figures",     share(500, 600),     valid::<File, _>),
        Cases("CobFaults", "faults put in, one or more", share(1_200, 1_500), faulty::<File, _>),
        Cases("CobBytes",  "bits and bytes damaged",     share(500, 600),     damaged::<File, _>),
        Cases("CobLong",   "as long as they may be",     few(1, 9),           long::<File, _>),
    ];
    plan.all(STREAM, &families, pair)
}
