//! Two neighbouring children of a 3D3D exchanged, and what every answer
//! must then be, worked out from the answers before.

use super::facts::{self, Facts, Rooms};
use super::gaps::spots;
use super::lent::{hex, Difference};
use super::random::Random;
use crate::boundary::Boundary;

/// One try: the file before and after, what must be said of the latter, and
/// the number that each of its meshes had before.
pub struct Try {
    before: Vec<u8>,
    pub after: Vec<u8>,
    facts: Facts,
    expected: Facts,
    order: Vec<usize>,
}

/// Two neighbouring stretches: where the first begins, the second, and its end.
#[derive(Clone, Copy)]
struct Swap {
    first: usize,
    second: usize,
    end: usize,
}

/// Makes a try from an accepted file whose 3D3D has two children, by what the
/// given side says of it.
pub fn prepare(side: &impl Boundary, file: &[u8], random: &mut Random) -> Option<Try> {
    let facts = facts::ask(side, file, &facts::rooms(side, file)).ok()?;
    let mut records = facts.records.iter();
    let edit = records.find(|record| record[0] == 0x3D3D)?;
    let spots = spots(file, edit);
    let pairs = spots.len().checked_sub(2).filter(|pairs| *pairs > 0)?;
    let which = random.below(pairs);
    let swap = Swap {
        first: spots[which],
        second: spots[which + 1],
        end: spots[which + 2],
    };
    let names = facts.meshes.iter().map(|mesh| mesh.name[0] as usize);
    let order = swap.order(names.collect());
    Some(Try {
        before: file.to_vec(),
        after: swap.apply(file),
        expected: swap.expect(&facts, &order),
        facts,
        order,
    })
}

impl Swap {
    fn apply(self, file: &[u8]) -> Vec<u8> {
        let (one, other) = (&file[self.first..self.second], &file[self.second..self.end]);
        [&file[..self.first], other, one, &file[self.end..]].concat()
    }

    /// Where what stood at an offset stands afterwards.
    fn moved(self, offset: usize) -> usize {
        match offset {
            at if (self.first..self.second).contains(&at) => at + self.end - self.second,
            at if (self.second..self.end).contains(&at) => at + self.first - self.second,
            at => at,
        }
    }

    /// The numbers of things at some offsets, in the order they have afterwards.
    fn order(self, offsets: Vec<usize>) -> Vec<usize> {
        let mut order: Vec<usize> = (0..offsets.len()).collect();
        order.sort_by_key(|number| self.moved(offsets[*number]));
        order
    }

    /// What must be said of the file afterwards.
    fn expect(self, facts: &Facts, meshes: &[usize]) -> Facts {
        let offsets = facts.records.iter().map(|record| record[1] as usize);
        let order = self.order(offsets.collect());
        let moved = |offset: u32| self.moved(offset as usize) as u32;
        let records = order.iter().map(|number| {
            let mut record = facts.records[*number];
            record[1] = moved(record[1]);
            record[4] = renumbered(&order, record[4]);
            // As many records are inside as before.
            record[6] = record[6] + renumbered(&order, *number as u32) - *number as u32;
            record
        });
        let meshes = meshes.iter().map(|number| {
            let mut mesh = facts.meshes[*number].clone();
            mesh.name[0] = moved(mesh.name[0]);
            mesh.places[0] = mesh.name[0];
            for which in [3, 5, 7] {
                if let Some(chunk) = mesh.places[which].checked_sub(8) {
                    mesh.places[which] = 8 + moved(chunk);
                }
            }
            mesh
        });
        Facts {
            records: records.collect(),
            meshes: meshes.collect(),
            ..facts.clone()
        }
    }
}

/// The number that a record gets.
fn renumbered(order: &[usize], number: u32) -> u32 {
    let at = order.iter().position(|old| *old == number as usize);
    at.unwrap_or(0) as u32
}

impl Try {
    /// Whether a side says of the file after what it must; names and boxes too.
    pub fn judge(&self, side: &impl Boundary, name: &str) -> Result<(), Difference> {
        let call = || format!("swapped, {name} side, file after {}", hex(&self.after));
        let said = facts::ask(side, &self.after, &Rooms::of(&self.expected));
        if said.as_ref() != Ok(&self.expected) {
            return Err(Difference::should(call(), &self.expected, &said));
        }
        for (new, old) in self.order.iter().enumerate() {
            let before = boxed(side, &self.before, *old);
            let after = boxed(side, &self.after, new);
            let letters = [
                (&self.before, &self.facts, *old),
                (&self.after, &self.expected, new),
            ];
            let [one, other] = letters.map(|(file, facts, mesh)| {
                let [at, length] = facts.meshes[mesh].name.map(|number| number as usize);
                &file[at..at + length]
            });
            if before != after || one != other {
                return Err(Difference::should(call(), &(before, one), &(after, other)));
            }
        }
        Ok(())
    }
}

/// The box of a mesh, or its refusal.
fn boxed(side: &impl Boundary, file: &[u8], mesh: usize) -> (u64, [u8; 36]) {
    let mut floats = [0; 36];
    (side.bounding_box(file, mesh as u32, &mut floats), floats)
}
