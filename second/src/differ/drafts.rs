//! Files of other formats, before they are bytes: grown, with faults put in,
//! damaged, as long as they may be; and both sides asked about each.

use super::damage::{bits, bytes};
use super::lent::{anywhere, Difference};
use super::random::Random;
use crate::LIMIT;

/// A file of some format before it is bytes.
pub trait Draft: Sized {
    /// How many kinds of fault can be put in.
    const FAULTS: u64;

    /// A valid file.
    fn grown(random: &mut Random) -> Self;
    /// A file at the limit of length, valid but for a byte too many.
    fn long(index: u64, random: &mut Random) -> Self;
    /// Its bytes.
    fn bytes(&self) -> Vec<u8>;
    /// Puts in a fault of a kind.
    fn harm(&mut self, kind: u64, random: &mut Random);
    /// Makes right again what any other length would make wrong.
    fn mend(_file: &mut [u8]) {}
}

/// Both sides, which can be asked about files of a format.
pub trait Asks<D: Draft> {
    /// All calls over one file; the answer of the check, if they agree.
    fn whole(&mut self, file: &[u8], random: &mut Random) -> Result<u64, Difference>;
    /// Whether both say of a valid file what is to be said.
    fn said(&self, draft: &D, file: &[u8]) -> Result<(), Difference>;
}

/// A valid file, of which both sides say what is to be said.
pub fn valid<D: Draft, P: Asks<D>>(
    _: u64,
    random: &mut Random,
    pair: &mut P,
) -> Result<u64, Difference> {
    said(&D::grown(random), random, pair)
}

/// A file at the limit, or a byte longer.
pub fn long<D: Draft, P: Asks<D>>(
    index: u64,
    random: &mut Random,
    pair: &mut P,
) -> Result<u64, Difference> {
    said(&D::long(index, random), random, pair)
}

fn said<D: Draft, P: Asks<D>>(
    draft: &D,
    random: &mut Random,
    pair: &mut P,
) -> Result<u64, Difference> {
    let file = draft.bytes();
    if file.len() <= LIMIT {
        pair.said(draft, &file)?;
    }
    anywhere(&file, random, |file, random| pair.whole(file, random))
}

/// A file with a fault of the kind of the index put in, and perhaps more.
pub fn faulty<D: Draft, P: Asks<D>>(
    index: u64,
    random: &mut Random,
    pair: &mut P,
) -> Result<u64, Difference> {
    let mut draft = D::grown(random);
    draft.harm(index % D::FAULTS, random);
    while random.chance(35) {
        let kind = random.next() % D::FAULTS;
        draft.harm(kind, random);
    }
    anywhere(&draft.bytes(), random, |file, random| {
        pair.whole(file, random)
    })
}

/// A valid file whose bytes are damaged.
pub fn damaged<D: Draft, P: Asks<D>>(
    _: u64,
    random: &mut Random,
    pair: &mut P,
) -> Result<u64, Difference> {
    let mut file = D::grown(random).bytes();
    match random.chance(50) {
        true => bits(&mut file, random),
        false => bytes(&mut file, random),
    }
    if random.chance(90) {
        D::mend(&mut file);
    }
    anywhere(&file, random, |file, random| pair.whole(file, random))
}
