//! Slips grown at random: right ones, and ones with a fault put in.

use crate::differ::names;
use crate::differ::random::Random;

/// A slip before it is bytes.
#[derive(Clone, Debug)]
pub struct Draft {
    version: u8,
    /// How much more than the true ones the length and the count say.
    length_off: u32,
    count_off: u16,
    entries: Vec<Entry>,
    tail: Vec<u8>,
}

/// A name, a file's length, and the two sums.
#[derive(Clone, Debug)]
struct Entry {
    name: Vec<u8>,
    length: u32,
    sums: [u8; 2],
}

impl Draft {
    /// A slip of so many entries at the most.
    pub fn good(most: usize, random: &mut Random) -> Draft {
        let count = random.below(most + 1);
        Draft {
            version: 1,
            length_off: 0,
            count_off: 0,
            entries: (0..count)
                .map(|number| Entry::any(number, random))
                .collect(),
            tail: vec![],
        }
    }

    /// A slip with or without faults.
    pub fn any(random: &mut Random) -> Draft {
        let mut draft = Draft::good(8, random);
        while random.chance(45) {
            draft.spoil(random);
        }
        draft
    }

    /// About 1,000 entries, perhaps with a name twice.
    pub fn long(index: u64, random: &mut Random) -> Draft {
        let count = [999, 1_000, 1_001, 1_000][(index % 4) as usize];
        let mut draft = Draft::good(0, random);
        draft.entries = (0..count)
            .map(|number| Entry::any(number, random))
            .collect();
        if index % 8 > 4 {
            let (from, to) = (random.below(count), random.below(count));
            draft.entries[to].name = draft.entries[from].name.clone();
        }
        draft
    }

    /// Puts in a fault of some kind.
    fn spoil(&mut self, random: &mut Random) {
        let count = self.entries.len();
        let which = random.below(count.max(1));
        let other = random.below(count.max(1));
        let name = self.entries.get(other).map(|entry| entry.name.clone());
        match (random.below(8), self.entries.get_mut(which)) {
            (0, _) => self.version = random.pick(&[0, 2, 3, 128, 255]),
            (1, _) => self.length_off = random.pick(&[1, u32::MAX, 256, 5, 0xFFFF_FFFB, 1 << 24]),
            (2, _) => self.count_off = random.pick(&[1, 2, u16::MAX, 256, 1_000, 1_001, 0x8000]),
            (3, _) => self.tail = random.bytes(other + 1),
            (4, Some(entry)) => entry.sums[other % 2] = 255,
            (5, Some(entry)) => entry.name.clear(),
            (6, Some(entry)) => entry.name = name.unwrap_or_default(),
            (7, Some(entry)) => names::spoil(&mut entry.name, random),
            _ => (),
        }
    }

    /// Its bytes.
    pub fn bytes(&self) -> Vec<u8> {
        let mut body = (self.entries.len() as u16)
            .wrapping_add(self.count_off)
            .to_be_bytes()
            .to_vec();
        for entry in &self.entries {
            body.push(entry.name.len() as u8);
            body.extend_from_slice(&entry.name);
            body.extend(entry.length.to_be_bytes());
            body.extend(entry.sums);
        }
        body.extend_from_slice(&self.tail);
        let length = (body.len() as u32).wrapping_add(self.length_off);
        [&[self.version], &length.to_be_bytes()[..], &body].concat()
    }
}

impl Entry {
    /// An entry whose name is like no other's, as its number is in it.
    fn any(number: usize, random: &mut Random) -> Entry {
        let most = names::MOST - 2;
        let length = match random.below(30) {
            0 => most,
            1 => random.below(most),
            _ => random.below(4),
        };
        let rest = names::name(length, random);
        let number = [number / 64, number % 64].map(|digit| 32 + digit as u8);
        let name = [&number[..], &rest].concat();
        let sums = [0, 1].map(|_| match random.below(5) {
            0 => random.pick(&[0, 254]),
            _ => random.below(255) as u8,
        });
        Entry {
            name,
            length: random.next() as u32 >> random.below(32),
            sums,
        }
    }
}
