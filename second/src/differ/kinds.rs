//! What each byte of an accepted figure is: part of an identifier, a length,
//! a count, a coordinate, a name, or of a chunk that is passed over.

use crate::bytes::{first_word, header, name_length};
use crate::{check, list, row, Own, HEADER, RECORD};

/// What a byte is part of.
#[derive(Clone, Copy, Debug, PartialEq, Eq, PartialOrd, Ord)]
pub enum Kind {
    /// The header of a known chunk.
    Identifier,
    Length,
    /// The count word of a 4110, 4120, 4130 or 4140.
    Count,
    /// A float of a 4110.
    Coordinate,
    /// A corner of a 4120.
    Corner,
    /// An entry of a 4130.
    FaceNumber,
    /// A float of a 4140.
    Mapping,
    /// The father of a B010.
    Father,
    /// Any name, its zero among it.
    Name,
    /// All other own data: flag words, 4150, and what has a fixed size.
    Fixed,
    /// The header of an unlisted chunk, and what it holds.
    UnlistedIdentifier,
    UnlistedLength,
    UnlistedInside,
}

impl Kind {
    /// The words for a line of the table.
    pub fn words(self) -> &'static str {
        match self {
            Kind::Identifier => "identifier, known chunk",
            Kind::Length => "length, known chunk",
            Kind::Count => "count word",
            Kind::Coordinate => "coordinate (4110)",
            Kind::Corner => "corner (4120)",
            Kind::FaceNumber => "face number (4130)",
            Kind::Mapping => "mapping float (4140)",
            Kind::Father => "father (B010)",
            Kind::Name => "name",
            Kind::Fixed => "other own data",
            Kind::UnlistedIdentifier => "identifier, unlisted chunk",
            Kind::UnlistedLength => "length, unlisted chunk",
            Kind::UnlistedInside => "inside of an unlisted chunk",
        }
    }
}

/// The kind of every byte of a file; none if it is refused.
pub fn kinds(file: &[u8]) -> Vec<Kind> {
    let mut kinds = Vec::with_capacity(file.len());
    let mut records = vec![0; RECORD * check(file).map_or(0, |counts| counts.records)];
    if list(file, &mut records).is_err() {
        return kinds;
    }
    let mut known = records.as_chunks::<RECORD>().0.iter().peekable();
    // The known headers, their own data and the unlisted chunks, in the order
    // of the file, are all its bytes.
    while let Some((_, length)) = header(&file[kinds.len()..]) {
        let at = kinds.len();
        match known.next_if(|record| record[1] as usize == at) {
            Some(&[identifier, _, _, _, _, own, ..]) => {
                kinds.extend([Kind::Identifier; 2]);
                kinds.extend([Kind::Length; 4]);
                let own = &file[at + HEADER..][..own as usize];
                kinds.extend(own_kinds(identifier as u16, own));
            }
            None => {
                kinds.extend([Kind::UnlistedIdentifier; 2]);
                kinds.extend([Kind::UnlistedLength; 4]);
                kinds.resize(at + length, Kind::UnlistedInside);
            }
        }
    }
    kinds
}

/// The kinds of a known chunk's own data.
fn own_kinds(identifier: u16, own: &[u8]) -> Vec<Kind> {
    let shape = row(identifier).map_or(Own::Bytes(0), |row| row.own);
    let (name, entry): (usize, &[Kind]) = match shape {
        Own::Bytes(_) | Own::Smoothing => return vec![Kind::Fixed; own.len()],
        Own::Name => return vec![Kind::Name; own.len()],
        Own::Part => return part(own.len()),
        Own::Vertices => (0, &[Kind::Coordinate; 12]),
        Own::Faces => (0, &FACE),
        Own::Group => (name_length(own).unwrap_or(0), &[Kind::FaceNumber; 2]),
        Own::Mapping => (0, &[Kind::Mapping; 8]),
    };
    let count = first_word(&own[name..]).unwrap_or(0);
    [
        vec![Kind::Name; name],
        vec![Kind::Count; 2],
        entry.repeat(count),
    ]
    .concat()
}

/// A name, two words and the father.
fn part(length: usize) -> Vec<Kind> {
    let mut kinds = vec![Kind::Name; length - 6];
    kinds.extend([Kind::Fixed; 4]);
    kinds.extend([Kind::Father; 2]);
    kinds
}

/// Three corners and a flag word.
const FACE: [Kind; 8] = {
    let mut face = [Kind::Corner; 8];
    face[6] = Kind::Fixed;
    face[7] = Kind::Fixed;
    face
};
