//! The writer on both sides: names and rows with and without faults, every
//! room, and what is written read back.

use super::compare::Pair;
use super::facts::{self, Facts, Rooms};
use super::grow::finite;
use super::lent::{hex, spoken, Difference};
use super::names;
use super::random::Random;
use crate::boundary::{refusal, Boundary};
use std::ops::Range;

/// What the writer is handed.
#[derive(Clone, Debug, Default)]
pub struct Writing {
    pub name: Vec<u8>,
    pub vertices: Vec<f32>,
    pub corners: Vec<u16>,
    pub room: usize,
}

impl Writing {
    /// A small figure, with or without faults.
    pub fn small(random: &mut Random) -> Writing {
        let n = random.below(9);
        let f = if n == 0 { 0 } else { random.below(9) };
        let length = random.below(20);
        let name = names::name(length, random);
        let floats = (0..3 * n).map(|_| f32::from_bits(finite(random)));
        let vertices = floats.collect();
        let corners = (0..3 * f).map(|_| random.below(n) as u16).collect();
        let mut writing = Writing {
            name,
            vertices,
            corners,
            room: 0,
        };
        while random.chance(55) {
            writing.spoil(n, random);
        }
        writing.room = room(writing.size(), random);
        writing
    }

    /// Puts in a fault of some kind.
    fn spoil(&mut self, n: usize, random: &mut Random) {
        let most = [self.name.len(), self.vertices.len(), self.corners.len()];
        let [byte, float, corner] = most.map(|most| random.below(most.max(1)));
        match random.below(7) {
            5 | 6 => names::spoil(&mut self.name, random),
            0 => self.name.iter_mut().skip(byte).take(1).for_each(|b| *b = 0),
            1 => self.vertices.truncate(float),
            2 => self.corners.truncate(corner),
            3 => {
                let bad = random.pick(&[f32::NAN, -f32::NAN, f32::INFINITY, f32::NEG_INFINITY]);
                self.vertices
                    .iter_mut()
                    .skip(float)
                    .take(1)
                    .for_each(|f| *f = bad);
            }
            _ => {
                let high = random.pick(&[n as u16, n as u16 + 1, u16::MAX]);
                self.corners
                    .iter_mut()
                    .skip(corner)
                    .take(1)
                    .for_each(|c| *c = high);
            }
        }
    }

    /// The size of the figure, were it written.
    pub fn size(&self) -> usize {
        41 + self.name.len() + 12 * (self.vertices.len() / 3) + 8 * (self.corners.len() / 3)
    }

    /// Both sides write; the answer, if they agree in all and it reads back.
    pub fn ask<L: Boundary, R: Boundary>(&self, pair: &Pair<L, R>) -> Result<u64, Difference> {
        let mut ours = vec![0xA5; self.room + 16];
        let mut theirs = ours.clone();
        let left = self.make(&pair.left, &mut ours);
        let right = self.make(&pair.right, &mut theirs);
        let size = match refusal(left) {
            None => left as usize,
            Some(_) => 0,
        };
        let kept = ours[size.min(ours.len())..]
            .iter()
            .all(|byte| *byte == 0xA5);
        if left != right || ours != theirs || !kept {
            return Err(self.difference(shown(left, &ours), shown(right, &theirs)));
        }
        if size > 0 {
            let file = &ours[..size];
            self.read_back(&pair.left, file)?;
            self.read_back(&pair.right, file)?;
        }
        Ok(left)
    }

    fn make(&self, side: &impl Boundary, out: &mut [u8]) -> u64 {
        side.write(
            &self.name,
            &self.vertices,
            &self.corners,
            &mut out[..self.room],
        )
    }

    /// Whether a side reads from a file what was written into it.
    fn read_back(&self, side: &impl Boundary, file: &[u8]) -> Result<(), Difference> {
        let said = facts::ask(side, file, &Rooms::of(&self.facts()));
        match said.as_ref() == Ok(&self.facts()) {
            true => Ok(()),
            false => {
                let should = format!("should read back {:?}", self.facts());
                Err(self.difference(should, format!("reads back {said:?}")))
            }
        }
    }

    /// What is to be said of the figure.
    fn facts(&self) -> Facts {
        let (n, f) = (self.vertices.len() / 3, self.corners.len() / 3);
        let (size, name) = (self.size(), self.name.len());
        let mesh = 19 + name;
        let records = [
            [0x4D4D, 0, size, 0, 0, 0, 6],
            [0x3D3D, 6, size - 6, 1, 0, 0, 6],
            [0x4000, 12, size - 12, 2, 1, name + 1, 6],
            [0x4100, mesh, size - mesh, 3, 2, 0, 6],
            [0x4110, mesh + 6, 8 + 12 * n, 4, 3, 2 + 12 * n, 5],
            [0x4120, mesh + 14 + 12 * n, 8 + 8 * f, 4, 3, 2 + 8 * f, 6],
        ];
        let floats = self.vertices.iter().flat_map(|float| float.to_le_bytes());
        let words = self.corners.iter().flat_map(|corner| corner.to_le_bytes());
        Facts {
            records: records
                .map(|numbers| numbers.map(|number| number as u32))
                .to_vec(),
            counts: [36, size as u32 - 36, 0],
            meshes: vec![facts::Mesh {
                vertices: floats.collect(),
                corners: words.collect(),
                mapping: vec![],
                name: [18, name as u32],
                places: [18, name, n, mesh + 14, f, mesh + 22 + 12 * n, 0, 0].map(|k| k as u32),
            }],
            parts: vec![],
        }
    }

    fn difference(&self, left: String, right: String) -> Difference {
        let bits: Vec<String> = self.vertices.iter().take(60).map(float).collect();
        let corners = &self.corners[..self.corners.len().min(60)];
        let name = hex(&self.name[..self.name.len().min(60)]);
        let (n, f, room) = (self.vertices.len(), self.corners.len(), self.room);
        let length = self.name.len();
        let call = format!(
            "write name {length} [{name}] floats {n} {bits:?} corners {f} {corners:?} room {room}"
        );
        Difference { call, left, right }
    }

    /// Smaller writings of the same kind, to look for one that differs too.
    pub fn smaller(&self) -> Vec<Writing> {
        let lengths = [self.name.len(), self.vertices.len(), self.corners.len()];
        let parts = lengths.into_iter().enumerate().flat_map(|(part, length)| {
            let sizes = [length / 2, 6, 3, 1].into_iter();
            let sizes = sizes.filter(move |&by| by > 0 && by <= length);
            let ranges = sizes.flat_map(move |by| [length - by..length, 0..by]);
            ranges.map(move |range| (part, range))
        });
        parts
            .map(|(part, range)| self.without(part, range))
            .collect()
    }

    /// The same without some bytes of the name, some floats or some corners.
    fn without(&self, part: usize, range: Range<usize>) -> Writing {
        let mut less = self.clone();
        match part {
            0 => drop(less.name.drain(range)),
            1 => drop(less.vertices.drain(range)),
            _ => drop(less.corners.drain(range)),
        }
        let change = self.size() - less.size();
        less.room = self.room.saturating_sub(change);
        less
    }
}

/// A room around the size: too small, exact, more.
pub fn room(size: usize, random: &mut Random) -> usize {
    match random.below(7) {
        0 => size - 1,
        1 => size + 1,
        2 => random.below(size),
        3 => size + random.below(40),
        _ => size,
    }
}

/// The bits of a float, as hex digits.
fn float(float: &f32) -> String {
    format!("{:08X}", float.to_bits())
}

/// An answer, and the first of the bytes.
fn shown(answer: u64, bytes: &[u8]) -> String {
    let shown = &bytes[..bytes.len().min(256)];
    format!("{}, bytes {}", spoken(answer), hex(shown))
}
