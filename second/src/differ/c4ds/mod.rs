//! Both sides over Cinema 4D figures: grown with all that is to be said of
//! them, with faults put in, damaged, and as long as they may be.

mod asked;
pub mod erring;
mod grow;
mod harm;

use super::compare::Pair;
use super::drafts::{damaged, faulty, long, valid, Asks, Draft};
use super::lent::{anywhere, Difference};
use super::random::Random;
use super::run::{few, share, Cases, Failure, Plan, Tally};
use crate::boundary::C4ds;
use grow::File;

/// The first stream of numbers of these families.
const STREAM: u64 = 400;

/// Runs all families of Cinema 4D figures.
pub fn run<L: C4ds, R: C4ds>(plan: Plan, pair: &mut Pair<L, R>) -> Result<Tally, Box<Failure>> {
    #[rustfmt::skip]
    let families: [Cases<Pair<L, R>>; 6] = [
        Cases("C4ds",      "valid Cinema 4D figures",    share(500, 600),     valid::<File, _>),
        Cases("C4dKinds",  "objects of any sub-chunks",  share(500, 600),     kinds),
        Cases("C4dMany",   "smallest objects, 1 to many", few(1, 60),         many),
        Cases("C4dFaults", "faults put in, one or more", share(1_200, 1_500), faulty::<File, _>),
        Cases("C4dBytes",  "bits and bytes damaged",     share(500, 600),     damaged::<File, _>),
        Cases("C4dLong",   "as long as they may be",     few(1, 9),           long::<File, _>),
    ];
    plan.all(STREAM, &families, pair)
}

/// An object of sub-chunks as they come: each combination, right or wrong.
fn kinds<L: C4ds, R: C4ds>(
    _: u64,
    random: &mut Random,
    pair: &mut Pair<L, R>,
) -> Result<u64, Difference> {
    compared(File::any_kinds(random), random, pair)
}

/// Objects as small as they may be: the most that a file of its length has.
fn many<L: C4ds, R: C4ds>(
    _: u64,
    random: &mut Random,
    pair: &mut Pair<L, R>,
) -> Result<u64, Difference> {
    compared(File::many_small(random), random, pair)
}

fn compared<L: C4ds, R: C4ds>(
    draft: File,
    random: &mut Random,
    pair: &mut Pair<L, R>,
) -> Result<u64, Difference> {
    anywhere(&draft.bytes(), random, |file, random| {
        pair.whole(file, random)
    })
}
