//! Valid Caligari figures grown at random, with what a reader gets from them
//! worked out from how they were grown.

use super::harm;
use crate::differ::drafts::Draft;
use crate::differ::grow::finite;
use crate::differ::random::Random;
use crate::{Cob, CobMesh, LIMIT};
use std::collections::HashMap;

/// A file before it is bytes.
#[derive(Clone, Debug, Default)]
pub struct File {
    pub head: Vec<u8>,
    pub chunks: Vec<Chunk>,
    pub tail: Vec<u8>,
}

/// One chunk before it is bytes.
#[derive(Clone, Debug)]
pub struct Chunk {
    pub letters: [u8; 4],
    pub version: [u16; 2],
    pub identifier: u32,
    pub parent: u32,
    /// The size that is stated; the true one if there is none.
    pub stated: Option<i32>,
    pub body: Body,
}

/// What stands in a chunk.
#[derive(Clone, Debug)]
pub enum Body {
    Bytes(Vec<u8>),
    Mesh(Mesh),
}

/// What stands in a PolH.
#[derive(Clone, Debug)]
pub struct Mesh {
    pub placed: Vec<u8>,
    /// Bits of floats, three a vertex and two a texture.
    pub vertices: Vec<u32>,
    pub textures: Vec<u32>,
    pub faces: Vec<Face>,
    /// How much more than the true ones the three counts say.
    pub counts_off: [u32; 3],
}

/// A face, or a hole where the flags say so.
#[derive(Clone, Debug)]
pub struct Face {
    pub flags: u8,
    pub corners: Vec<[u32; 2]>,
    pub count_off: u16,
}

/// What every file begins with.
const HEAD: &[u8; 32] = b"Caligari V00.01BLH             \n";

/// Types that are nearly one of the four.
const OTHERS: [(&[u8; 4], [u16; 2]); 8] = [
    (b"BitM", [0, 1]),
    (b"POLH", [0, 2]),
    (b"PolH", [0, 3]),
    (b"Grou", [1, 0]),
    (b"Mat1", [0, 6]),
    (b"END ", [0, 1]),
    (b"PrTx", [0, 1]),
    (b"END\0", [1, 0]),
];

impl Draft for File {
    const FAULTS: u64 = 16;

    fn grown(random: &mut Random) -> File {
        let mut draft = File::default();
        for _ in 0..random.below(7) {
            let chunk = draft.chunk(random);
            draft.chunks.push(chunk);
        }
        draft.finish(random)
    }

    /// Very many chunks one inside the other, a large mesh, or one large chunk
    /// that is skipped.
    fn long(index: u64, random: &mut Random) -> File {
        let mut draft = File::default();
        match index % 3 {
            0 => {
                for identifier in 1..(LIMIT as u32 - 400) / 20 {
                    let parent = match index % 2 {
                        0 => identifier - 1,
                        _ => random.below(identifier as usize) as u32,
                    };
                    draft.chunks.push(other(identifier, parent, vec![], random));
                }
            }
            1 => {
                let count = random.from_to(20_000, 40_000);
                draft
                    .chunks
                    .push(mesh(Mesh::of(count, 2, count / 8, random), 1));
            }
            _ => (),
        }
        let last = draft.chunks.len() as u32;
        draft.chunks.push(group(last + 1, last, random));
        let more = [0, 0, 1][(index / 3 % 3) as usize];
        let filled = draft.clone().finish(random).bytes().len() + 20;
        let body = random.bytes((LIMIT + more).saturating_sub(filled));
        draft.chunks.push(other(last + 2, 0, body, random));
        draft.finish(random)
    }

    fn bytes(&self) -> Vec<u8> {
        let mut bytes = self.head.clone();
        for chunk in &self.chunks {
            bytes.extend(chunk.bytes());
        }
        bytes.extend_from_slice(&self.tail);
        bytes
    }

    fn harm(&mut self, kind: u64, random: &mut Random) {
        harm::once(self, kind, random);
    }
}

impl File {
    /// Puts the first bytes and the END around the chunks.
    fn finish(mut self, random: &mut Random) -> File {
        self.head = HEAD.to_vec();
        self.chunks.push(Chunk {
            letters: *b"END ",
            version: [1, 0],
            identifier: random.pick(&[0, 1, 7]),
            parent: random.pick(&[0, 99]),
            stated: random.pick(&[None, Some(-1)]),
            body: Body::Bytes(vec![]),
        });
        self
    }

    /// One more chunk, owned by none or by one before it.
    fn chunk(&self, random: &mut Random) -> Chunk {
        let identifier = match random.below(4) {
            0 => random.next() as u32 | 1 << 31,
            _ => 10 * (self.chunks.len() as u32 + 1),
        };
        let mut chunk = match random.below(8) {
            0 | 1 => group(identifier, 0, random),
            2 => material(identifier, random),
            3..6 => mesh(Mesh::grown(random), identifier),
            _ => {
                let length = random.below(12);
                other(identifier, 0, random.bytes(length), random)
            }
        };
        if !self.chunks.is_empty() && random.chance(60) {
            chunk.parent = self.chunks[random.below(self.chunks.len())].identifier;
        }
        if matches!(&chunk.letters, b"Grou" | b"PolH") && chunk.kind().is_some() {
            chunk.stated = random.pick(&[None, Some(-1)]);
        }
        chunk
    }

    /// What is to be read from a valid file.
    pub fn read(&self) -> Cob {
        let mut cob = Cob::default();
        let mut at = self.head.len();
        let mut owners = HashMap::with_capacity(self.chunks.len());
        for chunk in &self.chunks {
            let owner = match chunk.parent {
                0 => chunk.identifier,
                parent => owners.get(&parent).copied().unwrap_or(0),
            };
            owners.insert(chunk.identifier, owner);
            let length = chunk.bytes().len();
            let who = match &chunk.letters {
                b"END " => [0; 3],
                _ => [chunk.identifier, chunk.parent, owner],
            };
            if let (Body::Mesh(mesh), Some(_)) = (&chunk.body, chunk.kind()) {
                cob.meshes.push(mesh.read(at, cob.records.len()));
            }
            if let Some(letters) = chunk.kind() {
                cob.records
                    .push([letters, at as u32, length as u32, who[0], who[1], who[2]]);
            }
            at += length;
        }
        cob
    }
}

impl Chunk {
    /// Its letters as a number, if it is of the four types.
    fn kind(&self) -> Option<u32> {
        let four = [
            (b"END ", [1, 0]),
            (b"Grou", [0, 1]),
            (b"PolH", [0, 2]),
            (b"Mat1", [0, 5]),
        ];
        let known = four.contains(&(&self.letters, self.version));
        known.then(|| u32::from_le_bytes(self.letters))
    }

    pub fn bytes(&self) -> Vec<u8> {
        let body = match &self.body {
            Body::Bytes(bytes) => bytes.clone(),
            Body::Mesh(mesh) => mesh.bytes(),
        };
        let size = self.stated.unwrap_or(body.len() as i32) as u32;
        let version = self.version.map(u16::to_le_bytes);
        let numbers = [self.identifier, self.parent, size].map(u32::to_le_bytes);
        [
            &self.letters,
            version.as_flattened(),
            numbers.as_flattened(),
            &body,
        ]
        .concat()
    }
}

fn other(identifier: u32, parent: u32, body: Vec<u8>, random: &mut Random) -> Chunk {
    let (letters, version) = random.pick(&OTHERS);
    Chunk {
        letters: *letters,
        version,
        identifier,
        parent,
        stated: None,
        body: Body::Bytes(body),
    }
}

fn group(identifier: u32, parent: u32, random: &mut Random) -> Chunk {
    Chunk {
        letters: *b"Grou",
        version: [0, 1],
        body: Body::Bytes(placed(random)),
        ..other(identifier, parent, vec![], random)
    }
}

fn mesh(mesh: Mesh, identifier: u32) -> Chunk {
    Chunk {
        letters: *b"PolH",
        version: [0, 2],
        identifier,
        parent: 0,
        stated: None,
        body: Body::Mesh(mesh),
    }
}

fn material(identifier: u32, random: &mut Random) -> Chunk {
    let mut body = random.bytes(37);
    for (name, behind) in [(b"e:", 0), (b"t:", 16), (b"b:", 20)] {
        if random.chance(40) {
            body.extend_from_slice(name);
            body.extend(random.bytes(1));
            body.extend(string(random));
            body.extend(random.bytes(behind));
        }
    }
    Chunk {
        letters: *b"Mat1",
        version: [0, 5],
        body: Body::Bytes(body),
        ..other(identifier, 0, vec![], random)
    }
}

/// A name with its dupecount, axes and a position.
fn placed(random: &mut Random) -> Vec<u8> {
    let dupecount = random.word() & 0x7FFF;
    [
        dupecount.to_le_bytes().to_vec(),
        string(random),
        random.bytes(96),
    ]
    .concat()
}

/// A string with its length before it.
fn string(random: &mut Random) -> Vec<u8> {
    let length = if random.chance(95) {
        random.below(6)
    } else {
        random.below(400)
    };
    [&(length as u16).to_le_bytes()[..], &random.bytes(length)].concat()
}

impl Mesh {
    fn grown(random: &mut Random) -> Mesh {
        let count = random.below(6);
        let textures = if count == 0 { 0 } else { random.below(4) };
        let faces = random.below(7);
        Mesh::of(count, textures, faces, random)
    }

    /// A mesh of so many vertices, textures, and faces or holes.
    fn of(vertices: usize, textures: usize, faces: usize, random: &mut Random) -> Mesh {
        let mut mesh = Mesh {
            placed: placed(random),
            vertices: (0..3 * vertices).map(|_| finite(random)).collect(),
            textures: (0..2 * textures).map(|_| finite(random)).collect(),
            faces: vec![],
            counts_off: [0; 3],
        };
        for number in 0..faces {
            let hole = number > 0 && random.chance(25);
            let most = if vertices == 0 || textures == 0 { 1 } else { 6 };
            let count = if random.chance(60) {
                3.min(most - 1)
            } else {
                random.below(most)
            };
            let corner = |_| [random.below(vertices.max(1)), random.below(textures.max(1))];
            let corners = (0..count)
                .map(corner)
                .map(|pair| pair.map(|index| index as u32));
            mesh.faces.push(Face {
                corners: corners.collect(),
                flags: (random.word() as u8 & !8) | if hole { 8 } else { 0 },
                count_off: 0,
            });
        }
        mesh
    }

    fn bytes(&self) -> Vec<u8> {
        let counts = [
            self.vertices.len() / 3,
            self.textures.len() / 2,
            self.faces.len(),
        ];
        let said = |which: usize| {
            (counts[which] as u32)
                .wrapping_add(self.counts_off[which])
                .to_le_bytes()
        };
        let mut bytes = self.placed.clone();
        bytes.extend(said(0));
        bytes.extend(self.vertices.iter().flat_map(|float| float.to_le_bytes()));
        bytes.extend(said(1));
        bytes.extend(self.textures.iter().flat_map(|float| float.to_le_bytes()));
        bytes.extend(said(2));
        for face in &self.faces {
            bytes.push(face.flags);
            bytes.extend(
                (face.corners.len() as u16)
                    .wrapping_add(face.count_off)
                    .to_le_bytes(),
            );
            bytes.extend(if face.flags & 8 == 0 {
                &[0x5A; 2][..]
            } else {
                &[]
            });
            bytes.extend(
                face.corners
                    .as_flattened()
                    .iter()
                    .flat_map(|index| index.to_le_bytes()),
            );
        }
        bytes
    }

    /// The tables that are to be read, and what is to be told of the mesh
    /// whose chunk stands at an offset, where so many records come before.
    fn read(&self, at: usize, record: usize) -> CobMesh {
        let hole = |face: &Face| face.flags & 8 != 0;
        let mut corners = Vec::new();
        for (number, face) in self.faces.iter().enumerate() {
            let holed = self.faces.get(number + 1).is_some_and(hole);
            if face.corners.len() == 3 && !hole(face) && !holed {
                corners.extend(face.corners.iter().map(|pair| pair[0]));
            }
        }
        // Header, dupecount and length before the name; two matrices behind it.
        let behind = at + 20 + self.placed.len();
        let told = [
            at + 24,
            self.placed.len() - 100,
            behind - 48,
            self.vertices.len() / 3,
            behind + 4,
            self.faces.iter().filter(|face| !hole(face)).count(),
            corners.len() / 3,
            record,
        ];
        CobMesh {
            vertices: self.vertices.clone(),
            corners,
            told: told.map(|number| number as u32),
        }
    }
}
