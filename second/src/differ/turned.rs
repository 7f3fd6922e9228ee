//! Every single bit of a file turned, one at a time: how many are refused,
//! and how many are accepted with the same answers or with others.

use super::compare::{Call, Pair};
use super::facts::{self, Facts, Rooms};
use super::kinds::{kinds, Kind};
use super::lent::{spoken, Difference};
use super::random::Random;
use crate::boundary::{refusal, Boundary};
use std::collections::BTreeMap;

/// What became of some turned bits.
#[derive(Clone, Copy, Debug, Default, PartialEq, Eq)]
pub struct Counts {
    pub refused: u64,
    /// Accepted, and the list and all tables are the same.
    pub same: u64,
    /// Accepted, and the list or a table is another.
    pub other: u64,
    /// Of those with another: the identifiers in the list are others, so a
    /// chunk is lost, put in or taken for another.
    pub chunks: u64,
}

/// What became of all bits, and of those of each kind if the file was
/// accepted unturned.
#[derive(Clone, Debug, Default, PartialEq, Eq)]
pub struct Turned {
    pub all: Counts,
    pub kinds: BTreeMap<Kind, Counts>,
}

/// Turns every bit of a file; both sides have to agree on each.
pub fn turned<L: Boundary, R: Boundary>(
    file: &[u8],
    pair: &mut Pair<L, R>,
) -> Result<Turned, Difference> {
    let mut turned = Turned::default();
    let kinds = kinds(file);
    let rooms = facts::rooms(&pair.right, file);
    let before = said(&pair.right, file, &rooms);
    let mut bytes = file.to_vec();
    for bit in 0..8 * file.len() {
        bytes[bit / 8] ^= 1 << (bit % 8);
        pair.rescued(&bytes, &mut Random::of_case(0, 0, bit as u64))?;
        let counts = became(&bytes, pair, &rooms, &before)?;
        turned.all.add(counts);
        if let Some(kind) = kinds.get(bit / 8) {
            turned.kinds.entry(*kind).or_default().add(counts);
        }
        bytes[bit / 8] ^= 1 << (bit % 8);
    }
    Ok(turned)
}

/// What became of a file by the bit that was turned in it.
fn became<L: Boundary, R: Boundary>(
    bytes: &[u8],
    pair: &mut Pair<L, R>,
    rooms: &Rooms,
    before: &Result<Facts, String>,
) -> Result<Counts, Difference> {
    let mut counts = Counts::default();
    if refusal(pair.ask(bytes, Call::Check)?).is_some() {
        counts.refused = 1;
        return Ok(counts);
    }
    let left = said(&pair.left, bytes, rooms);
    let after = said(&pair.right, bytes, rooms);
    if left != after {
        return Err(Difference {
            call: "all answers with a bit turned".to_string(),
            left: format!("{left:?}"),
            right: format!("{after:?}"),
        });
    }
    counts.same = u64::from(after == *before);
    counts.other = u64::from(after != *before);
    counts.chunks = u64::from(identifiers(&after) != identifiers(before));
    Ok(counts)
}

impl Counts {
    /// Adds what became of other bits.
    pub fn add(&mut self, more: Counts) {
        self.refused += more.refused;
        self.same += more.same;
        self.other += more.other;
        self.chunks += more.chunks;
    }

    /// The counts as a line of the table.
    fn words(&self) -> String {
        let Counts {
            refused,
            same,
            other,
            chunks,
        } = self;
        let bits = refused + same + other;
        format!("{bits} bits: {refused} refused, {same} accepted with the same list and tables, {other} accepted with another ({chunks} with other chunks)")
    }
}

/// The list and all tables that a side gives for a file, with the room that
/// was enough for the file before if it still is.
fn said(side: &impl Boundary, file: &[u8], rooms: &Rooms) -> Result<Facts, String> {
    if facts::meshes(side, file) == rooms.meshes() {
        if let Ok(facts) = facts::ask(side, file, rooms) {
            return Ok(facts);
        }
    }
    facts::ask(side, file, &facts::rooms(side, file))
}

/// The identifiers in the list, in their order.
fn identifiers(said: &Result<Facts, String>) -> Vec<u32> {
    let records = said.iter().flat_map(|facts| &facts.records);
    records.map(|record| record[0]).collect()
}

/// The lines of a file: all its bits, then those of each kind.
pub fn words(turned: &Turned, verdict: u64) -> String {
    let mut text = format!("{} (unturned: {})", turned.all.words(), spoken(verdict));
    for (kind, counts) in &turned.kinds {
        text.push_str(&format!("\n  {:<28} {}", kind.words(), counts.words()));
    }
    text
}
