//! Everything a side says of an accepted file, to be compared with what it
//! should say: the list, the counts, and every mesh.

use super::compare::Pair;
use super::lent::{spoken, Difference};
use super::node::Node;
use crate::boundary::{refusal, Boundary, PART_BYTES, PLACES_BYTES, RECORD_BYTES};
use crate::{row, RECORD};

/// One mesh: its tables and the span of its name.
#[derive(Clone, Debug, Default, PartialEq, Eq)]
pub struct Mesh {
    pub vertices: Vec<u8>,
    pub corners: Vec<u8>,
    /// None where there is no list of pairs.
    pub mapping: Vec<u8>,
    pub name: [u32; 2],
    /// Where it stands: name, vertices, faces, pairs.
    pub places: [u32; 8],
}

impl Mesh {
    /// Two numbers for each vertex; those that are missing are zero.
    fn complete(&mut self) {
        self.mapping.resize(self.vertices.len() / 12 * 8, 0);
    }
}

/// All that is said of a file.
#[derive(Clone, Debug, Default, PartialEq, Eq)]
pub struct Facts {
    pub records: Vec<[u32; RECORD]>,
    pub counts: [u32; 3],
    pub meshes: Vec<Mesh>,
    /// Father and depth of each part.
    pub parts: Vec<[u32; 2]>,
}

/// The room that is lent when facts are asked for.
#[derive(Clone, Debug, Default, PartialEq, Eq)]
pub struct Rooms {
    records: usize,
    parts: usize,
    /// Bytes for the vertices, the corners and the pairs of each mesh.
    tables: Vec<[usize; 3]>,
}

impl Rooms {
    /// Just enough for facts that are known.
    pub fn of(facts: &Facts) -> Rooms {
        let meshes = facts.meshes.iter();
        Rooms {
            records: facts.records.len(),
            parts: facts.parts.len(),
            tables: meshes
                .map(|mesh| [&mesh.vertices, &mesh.corners, &mesh.mapping].map(Vec::len))
                .collect(),
        }
    }

    /// How many meshes there is room for.
    pub fn meshes(&self) -> usize {
        self.tables.len()
    }
}

/// What a side says of a file when just so much room is lent.
pub fn ask(side: &impl Boundary, file: &[u8], rooms: &Rooms) -> Result<Facts, String> {
    let mut bytes = vec![0; RECORD_BYTES * rooms.records];
    let records = accepted("list", side.list(file, &mut bytes))?;
    let mut counts = [0; 12];
    accepted("counts", side.counts(file, &mut counts))?;
    let mut parts = vec![0; PART_BYTES * rooms.parts];
    let hung = accepted("parts", side.parts(file, &mut parts))?;
    let mut facts = Facts {
        records: numbers(&bytes),
        counts: numbers(&counts)[0],
        meshes: Vec::with_capacity(rooms.tables.len()),
        parts: numbers(&parts),
    };
    facts.records.truncate(records as usize);
    facts.parts.truncate(hung as usize);
    for (number, tables) in rooms.tables.iter().enumerate() {
        let mesh = ask_mesh(side, file, number as u32, tables)?;
        facts.meshes.push(mesh);
    }
    let mut places = vec![0; PLACES_BYTES * rooms.meshes()];
    accepted("meshes", side.meshes(file, &mut places))?;
    for (mesh, places) in facts.meshes.iter_mut().zip(numbers(&places)) {
        mesh.places = places;
    }
    Ok(facts)
}

/// What a side says of one mesh.
fn ask_mesh(
    side: &impl Boundary,
    file: &[u8],
    number: u32,
    rooms: &[usize; 3],
) -> Result<Mesh, String> {
    let [vertices, corners, mapping] = rooms.map(|bytes| vec![0xA5; bytes]);
    let mut mesh = Mesh {
        vertices,
        corners,
        mapping,
        ..Mesh::default()
    };
    let filled = side.tables(file, number, &mut mesh.vertices, &mut mesh.corners);
    let filled = accepted("tables", filled)? as usize;
    mesh.vertices.truncate(12 * (filled & 0xFFFF));
    mesh.corners.truncate(6 * (filled >> 16));
    let filled = accepted("mapping", side.mapping(file, number, &mut mesh.mapping))?;
    mesh.mapping.truncate(4 * filled as usize);
    let mut span = [0; 8];
    accepted("name", side.name(file, number, &mut span))?;
    mesh.name = numbers(&span)[0];
    Ok(mesh)
}

/// How many meshes a side says a file has.
pub fn meshes(side: &impl Boundary, file: &[u8]) -> usize {
    match refusal(side.name(file, u32::MAX, &mut [0; 8])) {
        Some((16, count)) => count as usize,
        _ => 0,
    }
}

/// The room that a side says the meshes and records of a file need.
pub fn rooms(side: &impl Boundary, file: &[u8]) -> Rooms {
    let count = meshes(side, file) as u32;
    let needed = |answer| refusal(answer).map_or(0, |(_, place)| place as usize);
    let tables = (0..count).map(|mesh| {
        let vertices = 4 * needed(side.tables(file, mesh, &mut [], &mut []));
        let lent = &mut vec![0; vertices];
        let corners = 2 * needed(side.tables(file, mesh, lent, &mut []));
        let mapping = 4 * needed(side.mapping(file, mesh, &mut []));
        [vertices, corners, mapping]
    });
    Rooms {
        tables: tables.collect(),
        records: side.check(file) as u32 as usize,
        parts: needed(side.parts(file, &mut [])),
    }
}

/// An answer that is no refusal.
fn accepted(call: &str, answer: u64) -> Result<u64, String> {
    match refusal(answer) {
        None => Ok(answer),
        Some(_) => Err(format!("{call} {}", spoken(answer))),
    }
}

/// The numbers in bytes, so many at a time.
pub fn numbers<const N: usize>(bytes: &[u8]) -> Vec<[u32; N]> {
    let whole = bytes.as_chunks::<4>().0.iter();
    let numbers: Vec<u32> = whole.map(|bytes| u32::from_le_bytes(*bytes)).collect();
    numbers.as_chunks::<N>().0.to_vec()
}

impl Facts {
    /// What should be said of a valid figure, from the tree it was grown as.
    pub fn of_tree(root: &Node) -> Facts {
        let mut facts = Facts::default();
        facts.add(root, 0, 0, 0);
        facts.counts[0] = 6 * facts.records.len() as u32;
        facts
    }

    /// Whether both sides say just this of a file, with just the room for it.
    pub fn said_of<L: Boundary, R: Boundary>(
        &self,
        file: &[u8],
        pair: &Pair<L, R>,
    ) -> Result<(), Difference> {
        let rooms = Rooms::of(self);
        let left = ask(&pair.left, file, &rooms);
        let right = ask(&pair.right, file, &rooms);
        if left.as_ref() == Ok(self) && left == right && meshes(&pair.right, file) == rooms.meshes()
        {
            return Ok(());
        }
        Err(Difference {
            call: format!("a valid figure, which has {self:?}"),
            left: format!("{left:?}"),
            right: format!("{right:?}"),
        })
    }

    /// Adds a chunk that stands at an offset, and answers its end.
    fn add(&mut self, node: &Node, at: usize, depth: usize, parent: usize) -> usize {
        let size = node.size();
        if row(node.identifier).is_none() {
            self.counts[2] += size as u32;
            return at + size;
        }
        let (number, own) = (self.records.len(), node.own.len());
        self.records.push([0; RECORD]);
        self.counts[1] += own as u32;
        self.note(node, at);
        let mut next = at + 6 + own;
        for child in &node.children {
            next = self.add(child, next, depth + 1, number);
        }
        let mapped = node.children.iter().any(|c| c.identifier == 0x4140);
        if let (true, Some(mesh)) = (mapped, self.meshes.last_mut()) {
            mesh.complete();
        }
        if node.identifier == 0x4000 && !node.children.iter().any(|c| c.identifier == 0x4100) {
            self.meshes.pop();
        }
        let (identifier, inside) = (usize::from(node.identifier), self.records.len());
        let numbers = [identifier, at, size, depth, parent, own, inside];
        self.records[number] = numbers.map(|number| number as u32);
        next
    }

    /// Notes what a chunk says of a mesh or a part; an object is a mesh until
    /// its end.
    fn note(&mut self, node: &Node, at: usize) {
        let own = &node.own;
        if node.identifier == 0xB010 {
            let father = u16::from_le_bytes([own[own.len() - 2], own[own.len() - 1]]);
            let above = self.parts.get(usize::from(father));
            let depth = above.map_or(0, |above| above[1] + 1);
            self.parts.push([u32::from(father), depth]);
        }
        if node.identifier == 0x4000 {
            let name = [at as u32 + 6, own.len() as u32 - 1];
            self.meshes.push(Mesh {
                name,
                places: [name[0], name[1], 0, 0, 0, 0, 0, 0],
                ..Mesh::default()
            });
        }
        let Some(mesh) = self.meshes.last_mut() else {
            return;
        };
        if let Some(list) = [0x4110, 0x4120, 0x4140]
            .iter()
            .position(|id| *id == node.identifier)
        {
            let count = u32::from(u16::from_le_bytes([own[0], own[1]]));
            mesh.places[2 + 2 * list..][..2].copy_from_slice(&[count, at as u32 + 8]);
        }
        match node.identifier {
            0x4110 => mesh.vertices = own[2..].to_vec(),
            0x4140 => mesh.mapping = own[2..].to_vec(),
            0x4120 => {
                let faces = own[2..].as_chunks::<8>().0.iter();
                mesh.corners = faces.flat_map(|face| face[..6].to_vec()).collect();
            }
            _ => (),
        }
    }
}
