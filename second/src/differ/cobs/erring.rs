//! This library over Caligari figures with one error, to see that the cases
//! that show it are met; without one it is this library.

use crate::boundary::{cob_list_of, cob_meshes_of, cob_sizes_of, cob_tables_of, Cobs};
use crate::{read_cob, Cob, Number, Refusal};

listed! {
    /// The errors that can be made.
    Error, ERRORS:
    OwnerIsParent OwnerIsItself EndHasNumbers LengthWithoutHeader OffsetsWithoutHead
    OpenSizeRefused LastMeshLost EmptyMeshLost FacesAllWithoutHoles MinusZeroLost
    OpenBodyBeyond StrayHeaderMissing TrailingAtLength NegativeSizeIsLength
    OwnerOfUnlistedFree MeshFaultsExchanged
    PositionIsAxes FacesAreThoseTabled RecordIsMesh NameWithCount
}

/// This library, with an error or without.
#[derive(Clone, Copy, Debug, Default)]
pub struct Erring {
    pub error: Option<Error>,
}

impl Cobs for Erring {
    fn cob_check(&self, file: &[u8]) -> u64 {
        crate::boundary::answer(self.read(file).map(|cob| cob.records.len()))
    }

    fn cob_list(&self, file: &[u8], records: &mut [u8]) -> u64 {
        cob_list_of(self.read(file), records)
    }

    fn cob_sizes(&self, file: &[u8], mesh: u32, sizes: &mut [u8]) -> u64 {
        cob_sizes_of(self.read(file), mesh, sizes)
    }

    fn cob_tables(&self, file: &[u8], mesh: u32, vertices: &mut [u8], corners: &mut [u8]) -> u64 {
        cob_tables_of(self.read(file), mesh, vertices, corners)
    }

    fn cob_meshes(&self, file: &[u8], meshes: &mut [u8]) -> u64 {
        cob_meshes_of(self.read(file), meshes)
    }
}

impl Erring {
    /// What is read, with the error in it.
    fn read(&self, file: &[u8]) -> Result<Cob, Refusal> {
        match (read_cob(file), self.error) {
            (Ok(cob), Some(error)) => misread(error, file, cob),
            (Err(refusal), Some(error)) => Err(misjudged(error, file, refusal)),
            (read, None) => read,
        }
    }
}

/// The size in the header at an offset.
fn size(file: &[u8], at: usize) -> i32 {
    let bytes = file
        .get(at + 16..at + 20)
        .and_then(|bytes| bytes.first_chunk());
    bytes.map_or(0, |bytes| i32::from_le_bytes(*bytes))
}

/// An accepted file, read wrongly.
fn misread(error: Error, file: &[u8], mut cob: Cob) -> Result<Cob, Refusal> {
    for record in &mut cob.records {
        let [_, at, length, identifier, parent, owner] = record;
        match error {
            Error::OwnerIsParent if *parent != 0 => *owner = *parent,
            Error::OwnerIsItself => *owner = *identifier,
            Error::EndHasNumbers if *identifier == 0 => {
                *identifier = u32::from(file[*at as usize + 8])
            }
            Error::LengthWithoutHeader => *length -= 20,
            Error::OffsetsWithoutHead => *at -= 32,
            Error::OpenSizeRefused if *identifier != 0 && size(file, *at as usize) == -1 => {
                return Err(Number::Size.at(*at as usize));
            }
            _ => (),
        }
    }
    for (number, mesh) in cob.meshes.iter_mut().enumerate() {
        let [name, _, position, _, _, faces, tabled, record] = &mut mesh.told;
        match error {
            Error::PositionIsAxes => *position -= 48,
            Error::FacesAreThoseTabled => *faces = *tabled,
            Error::RecordIsMesh => *record = number as u32,
            Error::NameWithCount => *name -= 2,
            _ => (),
        }
    }
    match error {
        Error::LastMeshLost if cob.meshes.len() > 2 => drop(cob.meshes.pop()),
        Error::EmptyMeshLost => cob.meshes.retain(|mesh| !mesh.vertices.is_empty()),
        Error::FacesAllWithoutHoles => {
            let several = cob.meshes.iter_mut().filter(|mesh| mesh.corners.len() > 6);
            several.for_each(|mesh| mesh.corners.truncate(6));
        }
        Error::MinusZeroLost => {
            let floats = cob.meshes.iter_mut().flat_map(|mesh| &mut mesh.vertices);
            floats
                .filter(|bits| **bits == 1 << 31)
                .for_each(|bits| *bits = 0);
        }
        _ => (),
    }
    Ok(cob)
}

/// A refusal, given wrongly.
fn misjudged(error: Error, file: &[u8], refusal: Refusal) -> Refusal {
    let Refusal { number, place } = refusal;
    let known = file.get(place..place + 4).is_some_and(|letters| {
        [b"Grou", b"PolH", b"Mat1", b"END "]
            .iter()
            .any(|four| *four == letters)
    });
    match (error, number) {
        (Error::OpenBodyBeyond, 10) if size(file, place) == -1 => Number::Overrun.at(place),
        (Error::StrayHeaderMissing, 5) if place + 20 > file.len() => Number::Missing.at(place),
        (Error::TrailingAtLength, 3) => Number::Trailing.at(file.len()),
        (Error::NegativeSizeIsLength, 22) => Number::Length.at(place),
        (Error::OwnerOfUnlistedFree, 21) if !known => Number::Missing.at(file.len()),
        (Error::MeshFaultsExchanged, 11) => Number::Index.at(place),
        _ => refusal,
    }
}
