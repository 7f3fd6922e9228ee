//! Valid Cinema 4D figures grown at random, with what a reader gets from them
//! worked out from how they were grown.

use super::harm;
use crate::differ::drafts::Draft;
use crate::differ::random::Random;
use crate::{C4d, LIMIT};

/// A file before it is bytes.
#[derive(Clone, Debug)]
pub struct File {
    pub letters: [[u8; 4]; 2],
    /// How much more than the true one a size says.
    pub size_off: u32,
    pub chunks: Vec<Chunk>,
    pub tail: Vec<u8>,
}

/// A chunk with its sub-chunks, or with bytes that nobody looks at.
#[derive(Clone, Debug)]
pub struct Chunk {
    pub letters: [u8; 4],
    pub inside: Vec<Sub>,
    pub size_off: u32,
    pub tail: Vec<u8>,
}

/// A sub-chunk.
#[derive(Clone, Debug)]
pub struct Sub {
    pub identifier: u16,
    pub body: Vec<u8>,
    pub size_off: u32,
}

/// The combinations of source 000 in which each one is named once.
const KINDS: [&[u16]; 16] = [
    &[16],
    &[16, 19],
    &[16, 17, 19],
    &[16, 18, 19],
    &[16, 17, 18, 19],
    &[20],
    &[20, 16],
    &[20, 30],
    &[20, 16, 30],
    &[21],
    &[22],
    &[25],
    &[26],
    &[27, 16],
    &[29],
    &[],
];

/// Which combination each of them is.
const COMBINATION: [u32; 16] = [1, 1, 1, 1, 1, 2, 2, 2, 2, 3, 4, 5, 6, 7, 8, 9];

impl Draft for File {
    const FAULTS: u64 = 16;

    fn grown(random: &mut Random) -> File {
        let mut draft = File::of(vec![]);
        if random.chance(50) {
            draft.chunks.push(bytes(*b"PLTF", random));
        }
        draft.others(random);
        let highest = random.chance(70).then(|| random.below(4));
        draft
            .chunks
            .extend(highest.map(|highest| materials(highest, random)));
        draft.others(random);
        if random.chance(85) {
            let many = random.below(5);
            draft.chunks.push(objects(many, highest, random));
        }
        draft.others(random);
        draft
    }

    /// Very many objects, many textures, a sub-chunk whose size takes three
    /// bytes, or one chunk that is skipped.
    fn long(index: u64, random: &mut Random) -> File {
        let inside = match index % 4 {
            0 => {
                vec![vec![sub(1, random), sub(0, random)]; random.from_to(60_000, 80_000)].concat()
            }
            1 => {
                let textures = vec![texture(Some(3), random); 15_000];
                [vec![sub(1, random)], textures, vec![sub(0, random)]].concat()
            }
            2 => [1, 20, 0].map(|identifier| sub(identifier, random)).into(),
            _ => vec![],
        };
        let mut draft = File::of(vec![materials(3, random), chunk(*b"OBJ5", inside)]);
        // What is many is as small as it may be, so that it fits.
        for sub in &mut draft.chunks[1].inside {
            sub.body.truncate(if sub.identifier == 23 { 64 } else { 0 });
        }
        if index % 4 == 2 {
            let size = random.from_to(65_536, 900_000);
            draft.chunks[1].inside[1].body = random.bytes(size);
        }
        let more = [0, 0, 1][(index / 4 % 3) as usize];
        let left = (LIMIT + more).saturating_sub(draft.bytes().len() + 8);
        let mut last = chunk(*b"UMG4", vec![]);
        last.tail = random.bytes(left);
        draft.chunks.push(last);
        draft
    }

    fn bytes(&self) -> Vec<u8> {
        let mut body: Vec<u8> = self.chunks.iter().flat_map(Chunk::bytes).collect();
        body.extend_from_slice(&self.tail);
        let size = (body.len() as u32 + 4)
            .wrapping_add(self.size_off)
            .to_be_bytes();
        [&self.letters[0], &size, &self.letters[1], &body[..]].concat()
    }

    fn harm(&mut self, kind: u64, random: &mut Random) {
        harm::once(self, kind, random);
    }

    fn mend(file: &mut [u8]) {
        let size = (file.len() as u32).wrapping_sub(8).to_be_bytes();
        let slot = file.get_mut(4..8).into_iter();
        slot.for_each(|slot| slot.copy_from_slice(&size));
    }
}

impl File {
    fn of(chunks: Vec<Chunk>) -> File {
        File {
            letters: [*b"FORM", *b"MC4D"],
            size_off: 0,
            chunks,
            tail: vec![],
        }
    }

    /// A file of one object of sub-chunks as they come.
    pub fn any_kinds(random: &mut Random) -> File {
        let mut inside = vec![sub(1, random)];
        for _ in 0..random.below(6) {
            let identifier = match random.below(8) {
                0 => random.below(36) as u16,
                _ => 16 + random.below(17) as u16,
            };
            inside.push(if identifier == 23 {
                texture(None, random)
            } else {
                sub(identifier, random)
            });
        }
        inside.push(sub(0, random));
        File::of(vec![chunk(*b"OBJ5", inside)])
    }

    /// Objects without data, up to some 16,000 of them, some with a texture.
    pub fn many_small(random: &mut Random) -> File {
        let most = 1 << random.from_to(1, 14);
        let textured = random.pick(&[0, 0, 5, 50]);
        let mut inside = Vec::new();
        for _ in 0..random.from_to(1, most) {
            inside.push(empty(1));
            if random.chance(textured) {
                inside.push(texture(Some(3), random));
            }
            inside.push(empty(0));
        }
        File::of(vec![materials(3, random), chunk(*b"OBJ5", inside)])
    }

    /// Puts in chunks that are skipped.
    fn others(&mut self, random: &mut Random) {
        while random.chance(25) {
            let letters = random.pick(&[*b"UMG4", *b"MAT5", *b"OBJ4", *b"pltf", [0; 4]]);
            self.chunks.push(bytes(letters, random));
        }
    }

    /// What is to be read from a valid file.
    pub fn read(&self) -> C4d {
        let mut c4d = C4d::default();
        let mut at = 12;
        for chunk in &self.chunks {
            if chunk.letters == *b"OBJ5" {
                chunk.read(at + 8, &mut c4d);
            }
            at += chunk.bytes().len();
        }
        c4d
    }
}

impl Chunk {
    fn bytes(&self) -> Vec<u8> {
        let material = self.letters == *b"MAT4";
        let mut body: Vec<u8> = self
            .inside
            .iter()
            .flat_map(|sub| sub.bytes(material))
            .collect();
        body.extend_from_slice(&self.tail);
        let size = (body.len() as u32)
            .wrapping_add(self.size_off)
            .to_be_bytes();
        [&self.letters, &size, &body[..]].concat()
    }

    /// What is to be read of the objects in a valid OBJ5.
    fn read(&self, mut at: usize, c4d: &mut C4d) {
        let mut kinds = Vec::new();
        for sub in &self.inside {
            if sub.identifier == 1 {
                c4d.objects.push([at as u32, 0, 0]);
            }
            if let Some([_, combination, textures]) = c4d.objects.last_mut() {
                match sub.identifier {
                    0 => *combination = combined(&std::mem::take(&mut kinds)),
                    23 => *textures += 1,
                    kind => kinds.push(kind),
                }
            }
            if sub.identifier == 23 {
                let bytes = sub.body.last_chunk();
                c4d.materials
                    .extend(bytes.map(|bytes| u32::from_be_bytes(*bytes)));
            }
            at += 4 + sub.body.len();
        }
    }
}

/// The combination of an object that has these sub-chunks, among others.
fn combined(kinds: &[u16]) -> u32 {
    let named = |kind: &&u16| KINDS.iter().any(|known| known.contains(kind));
    let count = kinds.iter().filter(named).count();
    let same =
        |known: &&[u16]| known.len() == count && known.iter().all(|kind| kinds.contains(kind));
    KINDS
        .iter()
        .position(same)
        .map_or(0, |which| COMBINATION[which])
}

impl Sub {
    fn bytes(&self, material: bool) -> Vec<u8> {
        let size = (self.body.len() as u32)
            .wrapping_add(self.size_off)
            .to_be_bytes();
        let identifier = self.identifier.to_be_bytes();
        let header = match material {
            true => [identifier[0], identifier[1], size[2], size[3]],
            false => [identifier[1], size[1], size[2], size[3]],
        };
        [&header[..], &self.body].concat()
    }
}

fn chunk(letters: [u8; 4], inside: Vec<Sub>) -> Chunk {
    Chunk {
        letters,
        inside,
        size_off: 0,
        tail: vec![],
    }
}

/// A chunk whose bytes nobody looks at.
fn bytes(letters: [u8; 4], random: &mut Random) -> Chunk {
    let length = random.below(12);
    Chunk {
        tail: random.bytes(length),
        ..chunk(letters, vec![])
    }
}

/// A sub-chunk without data.
fn empty(identifier: u16) -> Sub {
    Sub {
        identifier,
        body: vec![],
        size_off: 0,
    }
}

/// A sub-chunk of a few bytes.
pub fn sub(identifier: u16, random: &mut Random) -> Sub {
    let length = if random.chance(97) {
        random.below(5)
    } else {
        random.below(300)
    };
    Sub {
        body: random.bytes(length),
        ..empty(identifier)
    }
}

/// A texture of a material, if there are any.
pub fn texture(highest: Option<usize>, random: &mut Random) -> Sub {
    let none = highest.is_none() || random.chance(25);
    let material = if none {
        u32::MAX
    } else {
        random.below(highest.unwrap_or(0) + 1) as u32
    };
    Sub {
        body: [random.bytes(60), material.to_be_bytes().to_vec()].concat(),
        ..sub(23, random)
    }
}

/// A MAT4 in which materials go up to a highest number.
fn materials(highest: usize, random: &mut Random) -> Chunk {
    let mut inside: Vec<Sub> = (0..highest).map(|_| sub(65, random)).collect();
    while random.chance(50) {
        let identifier = random.pick(&[1, 16, 64, 66, 23, 0x4100, 256]);
        let at = random.below(inside.len() + 1);
        inside.insert(at, sub(identifier, random));
    }
    inside.push(sub(0, random));
    chunk(*b"MAT4", inside)
}

/// An OBJ5 of so many objects.
fn objects(many: usize, highest: Option<usize>, random: &mut Random) -> Chunk {
    let mut inside = Vec::new();
    for _ in 0..many {
        unknown(&mut inside, random);
        let kinds = random.pick(&KINDS);
        let mut object: Vec<Sub> = kinds.iter().map(|kind| sub(*kind, random)).collect();
        for optional in [24, 28, 31, 32] {
            object.extend(random.chance(20).then(|| sub(optional, random)));
        }
        while random.chance(40) {
            object.push(texture(highest, random));
        }
        unknown(&mut object, random);
        random.shuffle(&mut object);
        inside.push(sub(1, random));
        inside.extend(object);
        inside.push(sub(0, random));
    }
    unknown(&mut inside, random);
    chunk(*b"OBJ5", inside)
}

/// Puts in sub-chunks that are skipped, often several of one kind.
fn unknown(inside: &mut Vec<Sub>, random: &mut Random) {
    while random.chance(25) {
        let identifier = random.pick(&[2, 15, 33, 200, 255]);
        inside.push(sub(identifier, random));
    }
}
