//! Both sides over slips: grown ones, every bit of small ones turned, and
//! entries to be written.

mod asked;
pub mod erring;
mod grow;

use super::compare::Pair;
use super::lent::{anywhere, Difference};
use super::random::Random;
use super::run::{few, share, Cases, Failure, Plan, Tally};
use crate::boundary::{refusal, Slips};
use grow::Draft;

/// The first stream of numbers of these families.
const STREAM: u64 = 200;

/// Runs all families of slips.
pub fn run<L: Slips, R: Slips>(plan: Plan, pair: &mut Pair<L, R>) -> Result<Tally, Box<Failure>> {
    #[rustfmt::skip]
    let families: [Cases<Pair<L, R>>; 4] = [
        Cases("Slips",     "slips, right and wrong",           share(500, 600), any),
        Cases("SlipBits",  "every bit of a small slip turned", share(10, 20),   turned),
        Cases("SlipsLong", "1,000 entries and one more",       few(2, 24),      long),
        Cases("Entries",   "entries written",                  share(500, 600), asked::entries),
    ];
    plan.all(STREAM, &families, pair)
}

/// A slip with or without faults.
fn any<L: Slips, R: Slips>(
    _: u64,
    random: &mut Random,
    pair: &mut Pair<L, R>,
) -> Result<u64, Difference> {
    slip(&Draft::any(random), random, pair)
}

/// A slip of very many entries.
fn long<L: Slips, R: Slips>(
    index: u64,
    random: &mut Random,
    pair: &mut Pair<L, R>,
) -> Result<u64, Difference> {
    slip(&Draft::long(index, random), random, pair)
}

/// A slip read with all kinds of room; one that is accepted written again.
fn slip<L: Slips, R: Slips>(
    draft: &Draft,
    random: &mut Random,
    pair: &mut Pair<L, R>,
) -> Result<u64, Difference> {
    let slip = draft.bytes();
    let answer = anywhere(&slip, random, |slip, random| {
        asked::read(slip, random, pair)
    })?;
    if refusal(answer).is_none() {
        asked::again(&slip, answer as usize, pair)?;
    }
    Ok(answer)
}

/// Every bit of a small slip turned.
fn turned<L: Slips, R: Slips>(
    _: u64,
    random: &mut Random,
    pair: &mut Pair<L, R>,
) -> Result<u64, Difference> {
    let slip = Draft::good(2, random).bytes();
    let mut bytes = slip.clone();
    for bit in 0..8 * slip.len() {
        bytes[bit / 8] ^= 1 << (bit % 8);
        asked::read(&bytes, random, pair)?;
        bytes[bit / 8] ^= 1 << (bit % 8);
    }
    asked::read(&slip, random, pair)
}
