//! Demand 3: private chunks put into gaps, or taken out, and what every
//! answer must then be, worked out from the answers before.

use super::facts::{self, Facts, Rooms};
use super::grow::unlisted;
use super::lent::{hex, Difference};
use super::random::Random;
use crate::boundary::Boundary;
use crate::{row, RECORD};

/// Bytes put in at, or taken out from, a spot in a known chunk.
#[derive(Clone, Debug)]
struct Change {
    spot: usize,
    /// The record of the chunk it is in.
    owner: usize,
    /// What is put in; empty if something is taken out.
    put: Vec<u8>,
    /// How many bytes are taken out behind the spot.
    taken: usize,
}

/// One try: the file before and after, and what must be said of the latter.
pub struct Try {
    pub after: Vec<u8>,
    expected: Facts,
    rooms: Rooms,
}

/// Makes a try from an accepted file, by what the given side says of it.
pub fn prepare(side: &impl Boundary, file: &[u8], random: &mut Random) -> Result<Try, String> {
    let before = facts::ask(side, file, &facts::rooms(side, file))?;
    let changes = match random.chance(70) {
        true => put_in(file, &before, random),
        false => take_out(file, &before, random),
    };
    Ok(Try {
        after: apply(file, &before, &changes),
        expected: expect(&before, &changes),
        rooms: Rooms::of(&before),
    })
}

impl Try {
    /// Whether a side says of the file after what it must.
    pub fn judge(&self, side: &impl Boundary, name: &str) -> Result<(), Difference> {
        let said = facts::ask(side, &self.after, &self.rooms);
        if said.as_ref() == Ok(&self.expected) {
            return Ok(());
        }
        Err(Difference::should(
            format!("demand 3, {name} side, file after {}", hex(&self.after)),
            &self.expected,
            &said,
        ))
    }
}

/// The spots of a known chunk: behind its own data and behind each child.
pub fn spots(file: &[u8], record: &[u32; RECORD]) -> Vec<usize> {
    let [identifier, offset, length, _, _, own, ..] = record.map(|number| number as usize);
    if row(identifier as u16).is_none_or(|row| row.holds == 0) {
        return vec![];
    }
    let (mut at, end) = (offset + 6 + own, offset + length);
    let mut spots = vec![at];
    while at < end {
        at += size(file, at);
        spots.push(at);
    }
    spots
}

/// The length that the header at an offset states.
fn size(file: &[u8], at: usize) -> usize {
    let bytes = [file[at + 2], file[at + 3], file[at + 4], file[at + 5]];
    u32::from_le_bytes(bytes) as usize
}

/// Chooses gaps and chunks for them.
fn put_in(file: &[u8], before: &Facts, random: &mut Random) -> Vec<Change> {
    let many = random.from_to(1, 6);
    let mut changes = Vec::with_capacity(many);
    for _ in 0..many {
        let owner = random.below(before.records.len());
        let spots = spots(file, &before.records[owner]);
        if !spots.is_empty() {
            let spot = random.pick(&spots);
            changes.push(Change {
                spot,
                owner,
                put: chunks(random),
                taken: 0,
            });
        }
    }
    changes
}

/// A few whole chunks of unlisted identifiers.
fn chunks(random: &mut Random) -> Vec<u8> {
    let mut bytes = Vec::with_capacity(64);
    for _ in 0..random.pick(&[1, 1, 2, 3]) {
        let most = if random.chance(90) { 20 } else { 300 };
        let length = random.below(most);
        bytes.extend(unlisted(random).to_le_bytes());
        bytes.extend((6 + length as u32).to_le_bytes());
        bytes.extend(random.bytes(length));
    }
    bytes
}

/// Chooses private chunks to be taken out.
fn take_out(file: &[u8], before: &Facts, random: &mut Random) -> Vec<Change> {
    let mut changes = Vec::new();
    for (owner, record) in before.records.iter().enumerate() {
        let spots = spots(file, record);
        let last = spots.len().saturating_sub(1);
        for &spot in &spots[..last] {
            let identifier = u16::from_le_bytes([file[spot], file[spot + 1]]);
            if row(identifier).is_none() && random.chance(70) {
                changes.push(Change {
                    spot,
                    owner,
                    put: vec![],
                    taken: size(file, spot),
                });
            }
        }
    }
    changes
}

/// How many more bytes there are for a change, or fewer.
fn growth(change: &Change) -> i64 {
    change.put.len() as i64 - change.taken as i64
}

/// Whether a record is a chunk, or one of those around it.
fn around(records: &[[u32; RECORD]], record: usize, mut inner: usize) -> bool {
    while inner > record {
        inner = records[inner][4] as usize;
    }
    inner == record
}

/// What must be said of the file after the changes.
fn expect(before: &Facts, changes: &[Change]) -> Facts {
    let moved = |offset: u32, behind: &dyn Fn(&Change) -> bool| {
        let moves = changes.iter().filter(|change| behind(change)).map(growth);
        (i64::from(offset) + moves.sum::<i64>()) as u32
    };
    let mut after = before.clone();
    for (number, record) in after.records.iter_mut().enumerate() {
        let offset = record[1];
        record[1] = moved(offset, &|change| change.spot <= offset as usize);
        let inside = |change: &Change| around(&before.records, number, change.owner);
        record[2] = moved(record[2], &inside);
    }
    // The root begins the file: nothing can be put in before it.
    after.records[0][1] = 0;
    after.counts[2] = moved(before.counts[2], &|_| true);
    for mesh in &mut after.meshes {
        let offset = mesh.name[0];
        mesh.name[0] = moved(offset, &|change| change.spot <= offset as usize);
        mesh.places[0] = mesh.name[0];
        // A list that is there moves with its chunk, whose header and count word
        // stand before it: a list of none ends where it begins.
        for which in [3, 5, 7] {
            if let Some(chunk) = mesh.places[which].checked_sub(8) {
                mesh.places[which] = 8 + moved(chunk, &|change| change.spot <= chunk as usize);
            }
        }
    }
    after
}

/// The bytes of the file after the changes, all lengths around them changed.
fn apply(file: &[u8], before: &Facts, changes: &[Change]) -> Vec<u8> {
    let mut bytes = file.to_vec();
    for (number, record) in before.records.iter().enumerate() {
        let inside = changes
            .iter()
            .filter(|change| around(&before.records, number, change.owner));
        let length = i64::from(record[2]) + inside.map(growth).sum::<i64>();
        let at = record[1] as usize + 2;
        bytes[at..at + 4].copy_from_slice(&(length as u32).to_le_bytes());
    }
    // At one byte the innermost chunk's gap comes first; from the end to the front.
    let mut order: Vec<&Change> = changes.iter().collect();
    let depth = |change: &Change| before.records[change.owner][3];
    order.sort_by_key(|change| (change.spot, u32::MAX - depth(change)));
    for change in order.into_iter().rev() {
        let range = change.spot..change.spot + change.taken;
        bytes.splice(range, change.put.iter().copied());
    }
    bytes
}
