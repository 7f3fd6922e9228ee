//! Caligari figures, binary .cob files: the strict walk over the chunks, who
//! owns whom, the list and the meshes.

mod body;

use crate::{Number, Refusal, LIMIT};
use body::{body, Body};
use std::collections::HashMap;

/// What a file begins with, in 32 bytes.
const HEAD: &[u8; 32] = b"Caligari V00.01BLH             \n";

/// The bytes of a chunk's header.
const HEADER: usize = 20;

/// The types that are read; another version is another type.
#[derive(Clone, Copy, Debug, PartialEq, Eq)]
pub(crate) enum Kind {
    End,
    Group,
    Polygons,
    Material,
}

/// One chunk of the four types, as the six numbers of the list.
pub type CobRecord = [u32; 6];

/// The tables of one mesh: vertex numbers, and the corners of the faces with
/// three of them and no holes.
#[derive(Clone, Debug, Default, PartialEq, Eq)]
pub struct CobMesh {
    /// The bits of the floats.
    pub vertices: Vec<u32>,
    pub corners: Vec<u32>,
    /// Where its name stands and how long that is; where its current position
    /// stands; its vertices, and where the first float stands; its faces, and
    /// those in the table; the number of its record.
    pub told: [u32; 8],
}

/// What is read from a file.
#[derive(Clone, Debug, Default, PartialEq, Eq)]
pub struct Cob {
    pub records: Vec<CobRecord>,
    pub meshes: Vec<CobMesh>,
}

/// The header of a chunk.
struct Header {
    letters: u32,
    kind: Option<Kind>,
    identifier: u32,
    parent: u32,
    size: i32,
}

/// Reads a whole file, or the first fault.
pub fn read_cob(file: &[u8]) -> Result<Cob, Refusal> {
    Number::TooLong.unless(file.len() <= LIMIT, 0)?;
    Number::Header.unless(file.starts_with(HEAD), 0)?;
    let mut cob = Cob::default();
    let mut owners = HashMap::new();
    let mut at = HEAD.len();
    while at < file.len() {
        let header = Header::read(&file[at..]).ok_or(Number::Overrun.at(at))?;
        let owner = header.owner(&owners);
        let end = header.kind == Some(Kind::End);
        Number::Owner.unless(end || owner.is_some(), at)?;
        let length = header.length(&file[at + HEADER..], at, &mut cob)?;
        cob.records.extend(header.record(at, length, owner));
        at += length;
        if end {
            return Number::Trailing.unless(at == file.len(), at).map(|()| cob);
        }
        owners.extend(owner.map(|owner| (header.identifier, owner)));
    }
    Err(Number::Missing.at(at))
}

impl Header {
    /// The header that some bytes begin with, if it and the size that it
    /// states do not go beyond them.
    fn read(bytes: &[u8]) -> Option<Header> {
        let numbers: &[u8; HEADER] = bytes.first_chunk()?;
        let [letters, version, identifier, parent, size] =
            std::array::from_fn(|at| crate::bytes::bits(&numbers[4 * at..]).next().unwrap_or(0));
        let header = Header {
            letters,
            kind: kind(
                letters.to_le_bytes(),
                [version as u16, (version >> 16) as u16],
            ),
            identifier,
            parent,
            size: size as i32,
        };
        let stated = usize::try_from(header.size).unwrap_or(0);
        (stated <= bytes.len() - HEADER).then_some(header)
    }

    /// The topmost owner, if identifier and parent are as they must be.
    fn owner(&self, owners: &HashMap<u32, u32>) -> Option<u32> {
        if self.identifier == 0 || owners.contains_key(&self.identifier) {
            return None;
        }
        match self.parent {
            0 => Some(self.identifier),
            parent => owners.get(&parent).copied(),
        }
    }

    /// The length with header of a chunk that such bytes follow, or 22 and
    /// what its body is refused with; a mesh is put to the others.
    fn length(&self, bytes: &[u8], at: usize, cob: &mut Cob) -> Result<usize, Refusal> {
        let open = matches!(self.kind, Some(Kind::End | Kind::Group | Kind::Polygons));
        Number::Size.unless(self.size >= 0 || (self.size == -1 && open), at)?;
        let stated = usize::try_from(self.size).ok();
        let Some(kind) = self.kind else {
            return Ok(HEADER + stated.unwrap_or(0));
        };
        let (found, length) = body(kind, &bytes[..stated.unwrap_or(bytes.len())])
            .filter(|(_, length)| stated.is_none_or(|stated| stated == *length))
            .ok_or(Number::Length.at(at))?;
        if let Body::Polygons(polygons) = found {
            Number::Number.unless(polygons.finite(), at)?;
            Number::Index.unless(polygons.indices_below_counts(), at)?;
            let record = cob.records.len();
            cob.meshes.push(polygons.mesh(at + HEADER, record));
        }
        Ok(HEADER + length)
    }

    /// The record of a chunk of the four types.
    fn record(&self, at: usize, length: usize, owner: Option<u32>) -> Option<CobRecord> {
        let [identifier, parent, owner] = match self.kind? {
            Kind::End => [0; 3],
            _ => [self.identifier, self.parent, owner?],
        };
        Some([
            self.letters,
            at as u32,
            length as u32,
            identifier,
            parent,
            owner,
        ])
    }
}

/// The type of some letters in a version, major and minor.
fn kind(letters: [u8; 4], version: [u16; 2]) -> Option<Kind> {
    match (&letters, version) {
        (b"END ", [1, 0]) => Some(Kind::End),
        (b"Grou", [0, 1]) => Some(Kind::Group),
        (b"PolH", [0, 2]) => Some(Kind::Polygons),
        (b"Mat1", [0, 5]) => Some(Kind::Material),
        _ => None,
    }
}
